"""Decides which check begins next: tries orders of the crates on a model of the build, and takes the order that ends first.

The memory of a check grows until it ends. So a crate begins only if the model says that memory suffices until all running checks have
ended. A long check that begins early can delay a crate for which more others wait, so different orders are tried. The number of processors
that each crate takes at most is tried too: with several a check ends sooner, but each of them does less.
"""
import dataclasses
import random

from tools.building.crates import Crate

# How often the plan is changed before the build begins, which takes some four seconds, and then at the end of each check.
FIRST_TRIES, TRIES = 4000, 600


@dataclasses.dataclass
class Check:
    """Holds a running check: its crate, when it began, about how long it takes, and its number of processors."""
    crate: Crate
    begin: float
    length: float
    processors: int = 1

    @property
    def end(self) -> float:
        return self.begin + self.length

    def bytes_at(self, time: float) -> float:
        return self.crate.bytes_at((time - self.begin) / self.length, self.processors)


class Plan:
    """Orders the crates that are left, each of which begins once those before it have begun. Also bounds the processors of the checks that
    take more than one."""

    def __init__(self, crates: list[Crate], jobs: int, room: float) -> None:
        self.jobs, self.room = jobs, room
        self.left, self.most = crates, dict[str, int]()
        self.tried, self.tries = random.Random(0), FIRST_TRIES

    def fits(self, check: Check, at_work: list[Check]) -> bool:
        """Returns whether there is memory for one more check until all running ones have ended. A single check on one processor always
        has enough."""
        checks = [*at_work, check]
        ends = [max(it.end, check.begin) for it in checks]
        taken = (sum(it.bytes_at(time) for it, end in zip(checks, ends) if end >= time) for time in ends)
        return not at_work and check.processors == 1 or max(taken) <= self.room

    def next_check(self, order: list[Crate], most: dict[str, int], at_work: list[Check], now: float, pace: float) -> Check | None:
        """Returns the check that begins now, if any: of the first crate, if all below it is proved and a processor and memory are
        free. The pace is the seconds here for one of those that were measured."""
        idle = self.jobs - sum(it.processors for it in at_work)
        if not order or idle < 1:
            return None
        waited_for = {it.name for it in order[1:]} | {it.crate.name for it in at_work}
        if not waited_for.isdisjoint(order[0].below):
            return None
        for processors in range(min(idle, most.get(order[0].name, 1)), 0, -1):
            check = Check(order[0], now, order[0].seconds(processors) * pace, processors)
            if self.fits(check, at_work):
                return check
        return None

    def end_of(self, order: list[Crate], most: dict[str, int], at_work: list[Check], now: float, pace: float) -> float:
        """Returns when all is proved, by the model."""
        left, at_work = list(order), list(at_work)
        while left or at_work:
            while check := self.next_check(left, most, at_work, now, pace):
                at_work.append(check)
                del left[0]
            first = min(at_work, key=lambda it: it.end)
            at_work.remove(first)
            now = max(now, first.end)
        return now

    def moved(self) -> list[Crate]:
        """Returns the order with one crate at another place: after those below it, and before those that use it."""
        order = list(self.left)
        crate = order.pop(self.tried.randrange(len(order)))
        first = max((at + 1 for at, it in enumerate(order) if it.name in crate.below), default=0)
        last = min((at for at, it in enumerate(order) if crate.name in it.below), default=len(order))
        order.insert(self.tried.randint(first, last), crate)
        return order

    def improve(self, at_work: list[Check], now: float, pace: float) -> None:
        """Tries other orders, and other numbers of processors, from one plan to the next that is done no later; kept is the first that is
        done soonest."""
        kept = best = self.end_of(self.left, self.most, at_work, now, pace), self.left, self.most
        for number in range(self.tries if self.left else 0):
            _, self.left, self.most = kept
            order, most = self.left, self.most
            if number % 2:
                order = self.moved()
            else:
                most = most | {self.tried.choice(self.left).name: self.tried.randint(1, self.jobs)}
            end = self.end_of(order, most, at_work, now, pace)
            if end <= kept[0]:
                kept = end, order, most
                best = kept if end < best[0] else best
        _, self.left, self.most = best
        self.tries = TRIES

    def begin(self, at_work: list[Check], now: float, pace: float) -> list[Check]:
        """Returns the checks that begin now."""
        self.improve(at_work, now, pace)
        begun: list[Check] = []
        while check := self.next_check(self.left, self.most, [*at_work, *begun], now, pace):
            begun.append(check)
            del self.left[0]
        return begun

    def seconds_left(self, at_work: list[Check], now: float, pace: float) -> float:
        return self.end_of(self.left, self.most, at_work, now, pace) - now
