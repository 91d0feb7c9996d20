"""Provides a temporary folder in which the scripts are tried, puts files there, runs commands there, and counts the checks."""
import json
import os
import shutil
import subprocess
import sys
import tempfile
import time
from collections.abc import Callable

CHECKOUT = os.path.dirname(os.path.dirname(os.path.realpath(__file__)))
WORK = tempfile.mkdtemp()
CLEARED = ("CC", "AR", "CFLAGS", "CPPFLAGS", "LDFLAGS", "DESTDIR", "NINJA", "PKG_CONFIG", "STRIP")
counts = {True: 0, False: 0}
PROGRAMS: list[str] = []  # the program that `meson machine-file` asks, if it isn't that of the checkout


def check(name: str, holds: object, shown: object = "") -> None:
    counts[bool(holds)] += 1
    print(f"scripts: {name}: {'passed' if holds else 'FAILED'}", flush=True)
    if not holds and shown:
        print("    " + str(shown).replace("\n", "\n    "))


def carry_out(*tests: Callable[[], object]) -> int:
    """Makes the tests, takes their folder away and says how many passed; gives the status."""
    try:
        for test in tests:
            test()
    finally:
        shutil.rmtree(WORK, ignore_errors=True)
    print(f"{counts[True]} passed, {counts[False]} failed")
    return 0 if counts[False] == 0 else 1


def words_of(words: list[str]) -> list[str]:
    """Returns the words of a command; `meson` is that of the checkout."""
    if words[:2] == ["meson", "machine-file"] and PROGRAMS:
        return [os.path.join(CHECKOUT, "tools", "machine-file"), PROGRAMS[0], *words[1:]]
    return [os.path.join(CHECKOUT, "meson"), *words[1:]] if words[0] == "meson" else words


def over(command: str, folder: str, *words: str) -> list[str]:
    """Returns the words of a command of `meson` over a folder."""
    return ["meson", command, *([] if command == "machine-file" else ["-C"]), folder, *words]


def environment(env: dict[str, str] | None = None) -> dict[str, str]:
    kept = {key: it for key, it in os.environ.items() if key not in CLEARED}
    return {**kept, "XDG_CACHE_HOME": os.path.join(WORK, "cache of the user"), **(env or {})}


def run(words: list[str], env: dict[str, str] | None = None, cwd: str = WORK, **how: object) -> subprocess.CompletedProcess:
    """Runs a command. Returns its status, output and errors."""
    how = {"stdout": subprocess.PIPE, "stderr": subprocess.PIPE, **how}
    return subprocess.run(words_of(words), env=environment(env), cwd=cwd, text=True, timeout=600, **how)


def wait_until(is_so: Callable[[], bool], seconds: float = 20) -> bool:
    """Returns whether a condition holds within this time; it is checked again and again."""
    end = time.monotonic() + seconds
    while not (answer := is_so()) and time.monotonic() < end:
        time.sleep(0.05)
    return answer


def put(path: str, text: str, mode: int = 0o644) -> str:
    path = os.path.join(WORK, path)
    os.makedirs(os.path.dirname(path), exist_ok=True)
    with open(path, "w", encoding="utf-8") as it:
        it.write(text)
    os.chmod(path, mode)
    return path


def read(path: str) -> str:
    with open(os.path.join(WORK, path), encoding="utf-8") as it:
        return it.read()


def refuses(name: str, words: list[str], status: int, text: str, **how: object) -> None:
    """Checks that a bad input ends with a status, and one clear line on the standard error."""
    done = run(words, **how)
    is_one_line = done.stderr.endswith("\n") and done.stderr.count("\n") == 1
    is_good = done.returncode == status and text in done.stderr and is_one_line
    check(f"{' '.join(words[:2])}: {name}", is_good, f"{done.returncode} {done.stderr}")


def document(**parts: object) -> dict[str, object]:
    return {"buildoptions": [], "buildsystem_files": {"absent": [], "present": ["meson.build"]}, "dependencies": [], "installed": {},
            "projectinfo": {"license": [], "name": "p", "version": "1"}, "targets": [], "tests": [], **parts}


def configured(folder: str, **parts: object) -> None:
    put(f"{folder}/meson-info/introspect.json", json.dumps(document(**parts), separators=(",", ":"), sort_keys=True))


def shell(name: str, script: str, suite: tuple[str, ...] = (), **parts: object) -> dict[str, object]:
    """Returns a test of the document, which runs a script."""
    return {"cmd": ["sh", "-c", script], "env": [], "name": name, "should_fail": False, "suite": list(suite), "timeout": 30, **parts}


# What `meson` needs to call a script.
COMMAND = ("bash", "dirname", "env", "python3", "readlink")


def only_on_path(*tools: str) -> str:
    """Returns a folder with these tools, for a PATH that has no others."""
    folder = tempfile.mkdtemp(dir=WORK)
    for tool in tools:
        os.symlink(sys.executable if tool == "python3" else shutil.which(tool), os.path.join(folder, tool))
    return folder


def shows_help(command: str, word: str) -> None:
    done = run(["meson", command, "--help"])
    is_good = done.returncode == 0 and done.stderr == "" and word in done.stdout
    check(f"meson {command}: help", is_good and done.stdout[:13].lower() == "usage: meson ", f"{done}")
