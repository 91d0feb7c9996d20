"""Limits what a compiler or pkg-config may do during a check: Landlock rules and limits, set between `fork` and `exec`.

A sandboxed process can execute only the files of `programs`, write only below the folder of its check and to /dev/null, and use no TCP. Its
memory, files, processes and time have limits. What it reads is not limited: headers and libraries may be anywhere, and links may lead to them.

One gap is known: the loader is among the programs, and a program that is handed to the loader is mapped, not executed. So a compiler that
can be made to run the loader runs a program inside the sandbox; the arguments that could do this are never given (allowed.py).
"""
from __future__ import annotations

import ctypes
import errno
import os
import resource
from collections.abc import Callable, Iterator

from tools import records as dataclasses
from tools.asking.programs import programs_of
from tools.early_signals import signal

# The system calls of Landlock, which have these numbers on every machine but Alpha, and the call and option of `prctl`.
CREATE_RULESET, ADD_RULE, RESTRICT_SELF = 444, 445, 446
OF_VERSION, BENEATH, NO_NEW_PRIVILEGES, SIGNAL_AT_DEATH_OF_PARENT = 1, 1, 38, 1
EXECUTE, WRITE_FILE, TRUNCATE, IOCTL = 1 << 0, 1 << 1, 1 << 14, 1 << 15
# Removing files and folders, making every kind of them, and moving them elsewhere.
CHANGE, REFER = sum(1 << it for it in range(4, 13)), 1 << 13
TCP, ABSTRACT_SOCKETS_AND_SIGNALS = 3, 3
# By each version of Landlock: the rights to files that it brought.
RIGHTS = {1: EXECUTE | WRITE_FILE | CHANGE, 2: REFER, 3: TRUNCATE, 5: IOCTL}
MIB = 1 << 20
MEMORY, LONGEST_FILE, SECONDS, PROCESSES = 2048 * MIB, 256 * MIB, 120, 512
# What a sandbox doesn't bound.
NO_LANDLOCK = "this system has no Landlock, so compilers run without a sandbox; their arguments are checked all the same"
OTHER_PROGRAMS = "the compiler runs programs that are not known here, so the sandbox doesn't limit which programs run"
UNBOUNDED = "the compiler doesn't work in a sandbox, so it runs without one; its arguments are checked all the same"
# Compiler caches and distributed compilers would want their own folders, sockets and servers.
VARIABLES = {"CCACHE_DISABLE": "1", "CCACHE_PREFIX": "", "SCCACHE_DISABLE": "1", "DISTCC_HOSTS": "localhost"}


class Ruleset(ctypes.Structure):
    """Defines `struct landlock_ruleset_attr` of linux/landlock.h."""
    _fields_ = (("files", ctypes.c_uint64), ("network", ctypes.c_uint64), ("scoped", ctypes.c_uint64))


class Beneath(ctypes.Structure):
    """Defines `struct landlock_path_beneath_attr`."""
    _pack_ = 1
    _fields_ = (("allowed", ctypes.c_uint64), ("parent", ctypes.c_int32))


LIBC = ctypes.CDLL(None, use_errno=True)
LIBC.syscall.restype = ctypes.c_long


def call(number: int, *arguments: object) -> int:
    """Returns the result of a system call, or an OSError."""
    done = LIBC.syscall(ctypes.c_long(number), *arguments)
    if done < 0:
        code = ctypes.get_errno()
        raise OSError(code, os.strerror(code))
    return done


def version_of_landlock() -> int:
    """Returns the version that the kernel has; 0 if it has none, or refuses it."""
    try:
        return call(CREATE_RULESET, None, ctypes.c_size_t(0), ctypes.c_uint32(OF_VERSION))
    except OSError:
        return 0


def allow(ruleset: int, path: str, rights: int) -> None:
    """Allows these rights to a file, or to all that is below a folder."""
    opened = os.open(path, os.O_PATH | os.O_CLOEXEC)
    try:
        call(ADD_RULE, ctypes.c_int(ruleset), ctypes.c_int(BENEATH), ctypes.byref(Beneath(rights, opened)), ctypes.c_uint32(0))
    finally:
        os.close(opened)


def limit(kind: int, most: int) -> None:
    """Sets a limit of this process, no higher than the one that it has."""
    hard = resource.getrlimit(kind)[1]
    most = most if hard == resource.RLIM_INFINITY else min(most, hard)
    resource.setrlimit(kind, (most, most))


def processes_of_all() -> int:
    """Returns how many processes and threads the system has, which is not less than those of this user."""
    try:
        with open("/proc/loadavg", encoding="ascii") as it:
            return int(it.read().split()[3].partition("/")[2])
    except (OSError, ValueError, IndexError):
        return 1 << 15


@dataclasses.dataclass(frozen=True)
class Sandbox:
    """Holds the version of Landlock, 0 if there is none; the files that can be executed, or None if any can; and what it can't bound."""
    version: int
    programs: tuple[str, ...] | None
    lack: str = ""
    has_limits: bool = True

    @property
    def handled(self) -> int:
        """Returns the rights to files that are taken away if no rule gives them."""
        known = sum(rights for version, rights in RIGHTS.items() if version <= self.version)
        return known if self.programs is not None else known & ~EXECUTE

    def entrance(self, folder: str) -> Entrance:
        """Returns what has a child sandboxed before `exec`; it may write below `folder`."""
        return Entrance(self.ruleset(folder) if self.version else None, limits() if self.has_limits else {})

    def ruleset(self, folder: str) -> int:
        network = TCP if self.version >= 4 else 0
        scoped = ABSTRACT_SOCKETS_AND_SIGNALS if self.version >= 6 else 0
        size = ctypes.sizeof(Ruleset) if self.version >= 6 else 16 if self.version >= 4 else 8
        made = call(CREATE_RULESET, ctypes.byref(Ruleset(self.handled, network, scoped)), ctypes.c_size_t(size), ctypes.c_uint32(0))
        try:
            allow(made, folder, self.handled & ~EXECUTE)
            allow(made, os.devnull, WRITE_FILE)
            for path in self.programs or ():
                allow(made, path, EXECUTE)
        except BaseException:
            os.close(made)
            raise
        return made

    def variables(self, folder: str) -> dict[str, str]:
        """Returns the environment: temporary files lie in the folder of the check."""
        return {**os.environ, **VARIABLES, "LC_ALL": "C", "TMPDIR": folder, "DISTCC_DIR": folder, "CCACHE_DIR": folder}

    def weaker(self) -> Iterator["Sandbox"]:
        """Yields this sandbox, and then those for compilers that don't work in it."""
        yield self
        if self.programs is not None:
            yield dataclasses.replace(self, programs=None, lack=OTHER_PROGRAMS)
        yield Sandbox(0, None, UNBOUNDED, False)


class Entrance:
    """Holds the number of a ruleset, if there is one, and the limits of a child. In a block it is the call by which the child enters."""

    def __init__(self, ruleset: int | None, most: dict[int, int]) -> None:
        self.ruleset, self.most = ruleset, most

    def __enter__(self) -> Callable[[], None]:
        return lambda: enter(self.ruleset, self.most)

    def __exit__(self, *_: object) -> None:
        if self.ruleset is not None:
            os.close(self.ruleset)


def limits() -> dict[int, int]:
    """Returns the most that a sandboxed process may have of each resource."""
    return {resource.RLIMIT_AS: MEMORY, resource.RLIMIT_FSIZE: LONGEST_FILE, resource.RLIMIT_CPU: SECONDS, resource.RLIMIT_CORE: 0,
            resource.RLIMIT_NPROC: PROCESSES + processes_of_all()}


def enter(ruleset: int | None, most: dict[int, int]) -> None:
    """Bounds this process for good, and has it ended with the thread that has started it and waits for it."""
    LIBC.prctl(ctypes.c_int(SIGNAL_AT_DEATH_OF_PARENT), *map(ctypes.c_ulong, (signal.SIGKILL, 0, 0, 0)))
    for kind, number in most.items():
        limit(kind, number)
    if LIBC.prctl(ctypes.c_int(NO_NEW_PRIVILEGES), *map(ctypes.c_ulong, (1, 0, 0, 0))) != 0:
        raise OSError(errno.EPERM, "no_new_privs can't be set")
    if ruleset is not None:
        call(RESTRICT_SELF, ctypes.c_int(ruleset), ctypes.c_uint32(0))


def sandbox_of(compiler: list[str], others: list[str], folder: str) -> Sandbox:
    """Returns the sandbox in which this compiler and these other commands are run; `folder` is empty."""
    version = version_of_landlock()
    return Sandbox(version, programs_of(compiler, others, folder)) if version else Sandbox(0, None, NO_LANDLOCK)
