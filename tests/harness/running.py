"""Runs a case in memory or in a folder of its own, and the same case cut, over fewer files, in pieces, and with each call failing once."""
import dataclasses
import json
import os
import shutil
import struct
import subprocess
import tempfile

from tests.harness.form import FormError
from tests.harness.given import KINDS, OVER_OLD, REMOVALS, Came, Given
from tests.harness.in_memory import Memory
from tests.harness.judge import DOCUMENT, FAULT_LINE, SAID, UNENDED, differing, shown
from tests.harness.over_old import each_fails_over_old, in_place
from tests.harness.places import changes, kind_of, locked, make_thing, pipe_of, states_below, stream_changer

# The most seconds that one run may take.
MOST_SECONDS = 60

# The most calls of one kind of which each is made to fail.
MOST_CALLS = 20_000

# The kinds of calls that fail where a case says no more.
USUAL_KINDS = ("memory", "device")

# The groups whose cases show the disk, the command line and whole runs of the program: they run by it too. So does each of so many others.
OF_PROGRAM = ("command_line", "devices", "first_path")
SAMPLE = 25

# The ways in which a case is run.
LIBRARY, PROGRAM = "through the library", "by the program"


@dataclasses.dataclass(frozen=True)
class Means:
    """Holds the means to run cases: the program, the library of harness/faults.c, and whether the library of the checkout runs the cases
    that it can."""

    program: str
    faults: str
    has_library: bool


class Room(Given):
    """Makes a folder with the sources of one case, anew for each run."""

    def __init__(self, case, folder, program, library):
        super().__init__(case, os.path.join(folder, "s"))
        self.folder, self.program, self.library = folder, program, library

    def line(self, pipe=()):
        """Returns the words of the command line; a machine file that comes through a pipe has that pipe's number."""
        if self.command is not None:
            return self.command
        line = [self.task, *self.words]
        if self.machine is not None:
            line += [b"--native-file", f"/dev/fd/{pipe[0]}".encode() if pipe else os.path.join(self.folder, "machine").encode()]
        return [*line, os.fsencode(self.build)]

    def fill(self, files):
        """Makes the folder with these files, and what else the case gives."""
        shutil.rmtree(self.root, ignore_errors=True)
        os.makedirs(self.root)
        for path in self.folders:
            os.makedirs(os.path.join(self.root, path), exist_ok=True)
        for path, data in files.items():
            whole = os.path.join(self.root, path)
            if "/" in path:
                os.makedirs(os.path.dirname(whole), exist_ok=True)
            with open(whole, "wb") as file:
                file.write(data)
        for kind, path, target in self.things:
            # Over fewer files a second name of one that isn't there is left out.
            if kind != "hardlink" or kind_of(os.path.join(self.root, target)) != "nothing":
                make_thing(kind, os.path.join(self.root, path), os.path.join(self.root, target) if kind == "hardlink" else target)
        if self.machine is not None:
            with open(os.path.join(self.folder, "machine"), "wb") as file:
                file.write(self.machine)

    def run(self, files=None, traced=False, **faults):
        """Runs the program over the case's files, or over these; 'faults' are what faults.c is to do."""
        self.fill(self.files if files is None else files)
        if self.taken is not None:
            faults = {"piece": 1, "kind": "put", "at": self.taken + 1, **faults}
        return self.run_here(traced, **faults)

    def run_here(self, traced=False, **faults):
        """Runs the program over what the folder holds."""
        environment = {"PATH": os.environ.get("PATH", ""), "LC_ALL": "C"}
        trace, counts = os.path.join(self.folder, "trace"), os.path.join(self.folder, "counts")
        if traced or faults:
            with open(trace, "wb"), open(counts, "wb") as file:
                file.write(bytes(8 * len(KINDS)))
            environment.update({f"FAULTS_{name.upper()}": str(value) for name, value in faults.items()})
            environment.update(LD_PRELOAD=self.library, FAULTS_TRACE=trace, FAULTS_COUNTS=counts)
        before = self.what_stays()
        folder = os.path.join(self.root, self.locked) if self.locked else None
        with locked(folder), pipe_of(self.machine if self.is_piped else None) as pipe:
            ran = subprocess.run(
                [b"meson", *self.line(pipe)], executable=self.program, cwd=os.path.join(self.root, self.inside), env=environment,
                stdin=subprocess.DEVNULL, stdout=subprocess.PIPE, stderr=subprocess.PIPE, timeout=MOST_SECONDS, pass_fds=pipe,
                preexec_fn=stream_changer(self.streams["closed"], self.streams["full"]),
            )
        came = Came(ran.returncode, ran.stdout, ran.stderr, *self.outputs())
        came.changes = changes(before, self.what_stays())
        if traced or faults:
            self.read_trace(came, trace, counts)
        return came

    def what_stays(self):
        """Returns what is at the paths at which nothing may change, and below them."""
        return {path: it for top in self.expected.stays for path, it in states_below(os.path.join(self.root, top)).items()}

    def build_folder(self):
        return os.path.join(self.root, self.inside, self.build)

    def outputs(self):
        """Returns the files below the build directory, by their paths there; no looks; and what is none of these, nor a folder."""
        found, others, top = {}, {}, self.build_folder()
        for folder, folders, names in os.walk(top):
            for path in (os.path.join(folder, name) for name in folders + names):
                kind, name = kind_of(path), os.path.relpath(path, top)
                if kind == "file":
                    with open(path, "rb") as file:
                        found[name] = file.read()
                elif kind != "folder":
                    others[name] = kind
        return found, None, others

    def read_trace(self, came, trace, counts):
        with open(trace, "rb") as file:
            lines = [line.partition(" ")[::2] for line in os.fsdecode(file.read()).split("\n") if line]
        # The sources are looked at below the current folder.
        below = [os.path.join(self.root, self.inside, path.removeprefix("./")).removeprefix(self.root + "/") for _, path in lines]
        looks = [path for (word, _), path in zip(lines, below) if word == "look"]
        # The machine file is next to the sources.
        came.looks = {path for path in looks if not path.startswith(("/", "../")) and not self.is_of_build(path)}
        made = [path.removeprefix(f"{self.build}/") for (word, _), path in zip(lines, below) if word == "make"]
        came.begun = tuple(dict.fromkeys(path.removesuffix(UNENDED) for path in made))
        failed = [path for word, path in lines if word == "fail"]
        if failed:
            came.failed, _, path = failed[0].partition(" ")
            came.may_go_on = self.may_go_on(came.failed, path, came.begun)
            came.after = tuple(path for word, path in lines if word == "after")
        with open(counts, "rb") as file:
            came.counts = dict(zip(KINDS, struct.unpack(f"={len(KINDS)}Q", file.read())))
        came.order = order_of(came)

    def may_go_on(self, failed, path, begun):
        """Returns whether a run may end as if the call of this name on this path had not failed."""
        # A run reports no failure to close a file, since its content was written before; nor to make a folder that exists; nor to remove an
        # old file next to an output if none was there.
        if failed in ("close", "mkdir", *REMOVALS):
            return True
        # A list that is collected is given room by a guess first, and where that is refused, by what comes: a run that came to just what
        # it comes to with all memory has lost nothing.
        if failed in ("malloc", "realloc", "aligned_alloc", "posix_memalign"):
            return True
        # An output that can't be compared with the old one takes its place. Whatever else can't be looked at may be what it must not be.
        below = os.path.join(self.root, self.inside, path).removeprefix(os.path.normpath(self.build_folder()) + "/")
        return failed in ("open", "statx", "lseek", "read", "pread") and below.removesuffix(UNENDED) in begun


def parts_of(case, jobs):
    """Returns the parts in which a case is run: the run itself, and each further run that it asks for, the long ones in so many shares."""
    parts = [("", "", 0, 1)]
    for it in case.items:
        if it.word == "cut":
            parts += [(f"cut {it.text}", it.text, share, jobs) for share in range(jobs)]
        elif it.word == "pieces":
            parts += [(f"in pieces of {piece}", piece, 0, 1) for piece in it.text.split()]
        elif it.word == "fail":
            parts += failing_parts(it.text, jobs)
    return parts


def failing_parts(text, jobs):
    """Yields the parts of a directive 'fail': its kinds of calls, and what is looked for in these runs, or that they are over old
    outputs."""
    text, begun, output = text.partition(" begun ")
    kinds = (" " + text).removesuffix(OVER_OLD)
    over = (" " + text)[len(kinds) :]
    # What only one of the runs shows is looked for in all of them.
    shares = 1 if begun else jobs
    for kind in kinds.split() or USUAL_KINDS:
        for share in range(shares):
            yield f"each call of {kind} fails{over}", kind + over + begun + output, share, shares


def run_case(case, part, means, is_sampled):
    """Runs a part of a case: through the library if memory has all of it, by the program if not, and both ways if the case is of the
    sample. Returns what differs for each of these ways: nothing if it is right."""
    found = {}
    memory = in_memory(case, part) if means.has_library else None
    if memory is not None:
        found[LIBRARY] = judged(part, lambda: memory)
    if memory is None or (is_sampled and not part[0]):
        with tempfile.TemporaryDirectory(prefix="c") as folder:
            found[PROGRAM] = judged(part, lambda: Room(case, folder, means.program, means.faults))
    return found


def in_memory(case, part):
    """Returns the case in memory, or None if this part of it needs the disk."""
    try:
        memory = Memory(case) if not part[0] or part[0].startswith("cut") else None
    except (FormError, ValueError):
        # The run by the program says what is wrong.
        return None
    return memory if memory is not None and memory.is_whole() else None


def judged(part, room_of):
    """Returns what differs of a part of a case, which is run in the room that is made."""
    label, text, share, shares = part
    try:
        room = room_of()
        if not label:
            return as_it_is(room)
        if label.startswith("cut"):
            return cut(room, text, share, shares)
        whole = room.run(traced=True)
        if room.expected.differences(whole):
            return ["the case itself is not right"]
        if label.startswith("in"):
            return in_pieces(room, whole, int(text))
        failing = each_fails_over_old if text.endswith(OVER_OLD) else each_fails
        return failing(room, whole, text.removesuffix(OVER_OLD), share, shares)
    except (FormError, ValueError) as error:
        return [f"the form of the case: {error}"]
    except subprocess.TimeoutExpired:
        return [f"the program has not ended within {MOST_SECONDS} seconds"]
    except (OSError, MemoryError) as error:
        return [f"it can't be run: {error}"]


def as_it_is(room):
    came = room.run(traced=is_traced(room.expected))
    found = room.expected.differences(came)
    if not found and came.status == 0 and DOCUMENT in came.outputs:
        found = over_present(room, came)
    if not found and room.expected.about is not None:
        found = told_otherwise(room, came)
    return found


def is_traced(expected):
    """Returns whether a run shows what is expected only if its calls are traced: looks, the order of events, and outputs that it gives
    up."""
    return expected.looks is not None or expected.order is not None or (expected.status != 0 and expected.outputs != [])


def told_otherwise(room, whole):
    """Returns where 'fault' does not report the fault of the whole run with its detail, or writes something."""
    room.task = b"fault"
    if room.command and room.command[0] == b"setup":
        room.command[0] = room.task
    came = room.run()
    found = [] if came.status == whole.status else [f"status of 'fault': {whole.status} must come, and {came.status} came"]
    found += differing("about", room.expected.about, came.log) + differing("complaint of 'fault'", whole.complaint, came.complaint)
    return found + [f"there is an output {it}, and 'fault' writes none" for it in sorted(came.outputs)]


def cut(room, path, share, shares):
    """Checks that each beginning of a file gives status 0, or a fault line and status 1."""
    data = room.files[path]
    for end in range(share, len(data) + 1, shares):
        came = room.run({**room.files, path: data[:end]})
        is_fault = came.status == 1 and FAULT_LINE.fullmatch(came.complaint)
        if not is_fault and (came.status != 0 or came.complaint):
            return [f"cut at byte {end}: status {came.status}, and it said\n{shown(came.complaint)}"]
    return []


def over_present(room, whole):
    """Checks that the run is the same over a tree with only the files that the document lists as present, and looks at nothing else."""
    files = json.loads(whole.outputs[DOCUMENT])["buildsystem_files"]
    came = room.run({it: room.files.get(it, b"") for it in files["present"]}, traced=True)
    found = []
    if (came.status, came.log, came.complaint, came.outputs) != (whole.status, whole.log, whole.complaint, whole.outputs):
        over = f"over the files that are listed as present, {files['present']}"
        found.append(f"{over}, another run came: status {came.status}, and it said\n{shown(came.complaint)}")
    more = sorted((came.looks or set()) - {*files["present"], *files["absent"]})
    return found + ([f"looked at, and not listed: {more}"] if more else [])


def in_pieces(room, whole, piece):
    """Checks that the run is the same if each read and write moves at most so many bytes."""
    came = room.run(piece=piece)
    same = (came.status, came.log, came.complaint, came.outputs) == (whole.status, whole.log, whole.complaint, whole.outputs)
    return [] if same else [f"another run came: status {came.status}, and it said\n{shown(came.complaint)}"]


def each_fails(room, whole, kind, share, shares):
    """Checks that a beginning of the whole run comes, with the kind's status, whichever call of a kind fails. One of them has to come if
    'begun' says so."""
    kind, _, begun = kind.partition(" begun ")
    is_seen = not begun
    calls = whole.counts[kind]
    if not 0 < calls <= MOST_CALLS:
        return [f"the run makes {calls} calls of {kind}"]
    for number in range(1 + share, calls + 1, shares):
        came = room.run(kind=kind, at=number)
        why = differs_from_failing(came, whole, kind)
        if why:
            return [f"call {number} of {calls} ({came.failed or 'which did not come'}) fails: {why}"]
        is_seen |= came.status in SAID and begun in came.given_up()
    return [] if is_seen else [f"none of the {calls} runs ends while {begun} is begun"]


def differs_from_failing(came, whole, kind):
    """Returns why what came is not what a run comes to in which a call of this kind fails, if it is not."""
    said_the_same = (came.status, came.log, came.complaint) == (whole.status, whole.log, whole.complaint)
    if said_the_same and in_place(came.outputs) == in_place(whole.outputs) and came.may_go_on:
        return None
    # If a call of a device runs out of memory, that is a device fault.
    statuses = (3, 2) if kind == "memory" else (2,)
    if came.status not in statuses:
        return f"status {' or '.join(map(str, statuses))} must come, and {came.status} came"
    more = [it for it in came.after if not is_of_the_end(it)]
    if more:
        return f"these calls came after it: {more}"
    if came.left_over():
        return f"these are left: {came.left_over()}"
    if not whole.log.startswith(came.log):
        return f"the log is no beginning of the whole one:\n{shown(came.log)}"
    said = came.complaint.removesuffix(SAID[came.status])
    if said == came.complaint or not whole.complaint.startswith(said):
        return f"it complained:\n{shown(came.complaint)}"
    return why_no_beginning(in_place(came.outputs), in_place(whole.outputs), whole.begun)


def is_of_the_end(call):
    """Returns whether a call, with its path, may come after one that failed. The run writes what was taken before, reports its end,
    closes files, and removes an unfinished one. It looks at, reads, makes, syncs and renames nothing any more."""
    name, _, path = call.partition(" ")
    return name in ("write", "close") or (name in REMOVALS and path.endswith(UNENDED))


def order_of(came):
    """Returns the events of a run on a disk in their order: outputs as they were begun, then the fault. Where the log comes between
    isn't seen, nor what was written of an output that was given up."""
    if came.log or came.given_up():
        return None
    order = []
    for name in came.begun:
        text = came.outputs[name]
        order += [("open", name.encode()), *[("bytes", text)][: len(text)], ("close", name.encode())]
    fault = came.complaint.removesuffix(SAID.get(came.status, b""))
    return order + [("fault", fault)][: len(fault)]


def why_no_beginning(came, whole, order):
    """Returns why the outputs in their places are no beginning of those of the whole run, which were begun in this order, if they are
    not."""
    for name, text in came.items():
        if whole.get(name) != text:
            return f"the output {name} is not that of the whole run:\n{shown(text)}"
    ended = [it for it in order if it in came]
    return None if ended == list(order[: len(ended)]) else f"outputs are left out: {ended}"
