"""Runs a case over a build directory that has old outputs, with each call of a kind failing in turn: the status says what happened, each
old output is as it was or the new one, whole, and the run that comes after makes all of them new."""
import errno
import os

from tests.harness.judge import DOCUMENT, SAID, SYNCED, UNENDED, shown

# The time that old outputs have.
OLD_TIME = 10**9

# What a disk over a network or a quota says of writes that were lost.
LATE_ERRORS = (errno.EIO, errno.ENOSPC, errno.EDQUOT)

NEVER_WHOLE = b"of a run before\n"

def old_sets(whole) -> dict:
    """Returns the old outputs over which a case is run, by what they are: of other bytes, as long as those that come, and of the same
    bytes."""
    names = {*whole.begun, "build.ninja", DOCUMENT}
    ended = {name: whole.outputs[name] for name in names if whole.outputs.get(name)}
    other = {name: ended[name][:-1] + b"?" if name in ended else NEVER_WHOLE for name in names}
    return {"old outputs of other bytes": other, "old outputs of the same bytes": {**other, **ended}}


def put_old(room, old: dict) -> None:
    """Makes the folder of the case anew, with these old outputs."""
    room.fill(room.files)
    for name, data in old.items():
        path = os.path.join(room.build_folder(), name)
        os.makedirs(os.path.dirname(path), exist_ok=True)
        with open(path, "wb") as file:
            file.write(data)
        os.utime(path, (OLD_TIME, OLD_TIME))


def times(room, names: set) -> dict:
    """Returns when existing outputs were written."""
    paths = {name: os.path.join(room.build_folder(), name) for name in names}
    return {name: int(os.stat(path).st_mtime) for name, path in paths.items() if os.path.exists(path)}


def each_fails_over_old(room, whole, kind: str, share: int, shares: int) -> list:
    """Returns what is wrong with the first such run that isn't right."""
    for which, old in old_sets(whole).items():
        put_old(room, old)
        calls = room.run_here(traced=True).counts[kind]
        stamps = times(room, set(old))
        moved = sorted(name for name, data in old.items() if whole.outputs.get(name) == data and stamps[name] != OLD_TIME)
        if moved:
            return [f"these have the same bytes, and not their time: {moved}"]
        if not calls:
            # A run that makes no output loses none.
            return [] if kind == "late" else [f"the run makes no call of {kind}"]
        for number in range(1 + share, calls + 1, shares):
            for error in LATE_ERRORS if kind == "late" else LATE_ERRORS[:1]:
                put_old(room, old)
                came = room.run_here(kind=kind, at=number, error=error)
                why = why_not_kept(came, times(room, set(old)), old, whole, kind) or why_not_mended(room, old, whole)
                if why:
                    failed = came.failed or "which did not come"
                    return [f"over {which}, call {number} of {calls} ({failed}) fails ({errno.errorcode[error]}): {why}"]
    return []


def in_place(outputs: dict) -> dict:
    """Returns the outputs in their places, without the unfinished ones next to them."""
    return {name: data for name, data in outputs.items() if not name.endswith(UNENDED)}


def why_not_kept(came, stamps: dict, old: dict, whole, kind: str) -> str | None:
    """Returns why a run in which a call failed is none that keeps old outputs and says so, if it is none."""
    after = {**old, **in_place(whole.outputs)}
    said_the_same = (came.status, came.log, came.complaint) == (whole.status, whole.log, whole.complaint)
    if said_the_same and in_place(came.outputs) == after and (came.may_go_on or kind == "late"):
        return None
    if said_the_same and kind == "late" and all(came.outputs.get(it) == after.get(it) for it in SYNCED):
        return None
    statuses = (3, 2) if kind == "memory" else (2,)
    if came.status not in statuses:
        wrong = sorted(name for name in after if came.outputs.get(name) != after[name])
        return f"status {' or '.join(map(str, statuses))} must come, and {came.status} came; outputs that are not right: {wrong}"
    if not whole.log.startswith(came.log) or not whole.complaint.startswith(came.complaint.removesuffix(SAID[came.status])):
        return f"it said:\n{shown(came.log)}\n{shown(came.complaint)}"
    for name in old:
        is_kept = came.outputs.get(name) == old[name] and stamps.get(name) == OLD_TIME
        if not is_kept and (name not in whole.outputs or came.outputs.get(name) != whole.outputs[name]):
            return f"the old output {name} is neither as it was nor the new one, whole:\n{shown(came.outputs.get(name, b'(nothing)'))}"
    more = sorted(set(in_place(came.outputs)) - set(old) - set(whole.begun)) + came.left_over()
    return f"there is more than outputs: {more}" if more else None


def why_not_mended(room, old: dict, whole) -> str | None:
    """Returns why the run that comes after, in which nothing fails, doesn't make all outputs new, if it does not."""
    came = room.run_here()
    wanted = {**old, **whole.outputs}
    if (came.status, came.log, came.complaint) != (whole.status, whole.log, whole.complaint):
        return f"the next run had status {came.status}, and said\n{shown(came.log)}\n{shown(came.complaint)}"
    wrong = sorted(name for name in wanted.keys() | came.outputs.keys() if wanted.get(name) != came.outputs.get(name))
    return f"after the next run these outputs are not right: {wrong}" if wrong else None
