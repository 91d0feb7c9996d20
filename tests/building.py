"""Tests which checks `build-program` begins, over crates made by hand; tests/scripts runs this too."""
from collections.abc import Sequence

from tests.workshop import check
from tools.building.crates import MIB, Crate, crates_of, longest_way_first
from tools.building.plan import Check, Plan


def crate(name: str, *below: str, work: float = 100, size: float = 1000) -> Crate:
    """Returns a crate of so many seconds and MiB, over these, which are all that are below."""
    return Crate(name, list(below), set(below), "", work, size)


def plan(*crates: Crate, jobs: int = 4, size: float = 8000) -> Plan:
    return Plan(longest_way_first({it.name: it for it in crates}), jobs, size * MIB)


def begun(made: Plan, at_work: Sequence[Check] = (), now: float = 0) -> set[str]:
    """Returns the crates whose checks begin now."""
    return {it.crate.name for it in made.begin([*at_work], now, 1)}


# Seconds of a check that only loads: more processors don't shorten it, so these show the order alone.
SHORT = 20


def test_order() -> None:
    got = begun(plan(crate("a"), crate("b"), crate("c", "b"), jobs=1))
    check("build-program: the longest way first", got == {"b"}, got)
    one = plan(crate("a"), crate("b"), crate("c", "a", "b"), jobs=2)
    check("build-program: side by side", begun(one) == {"a", "b"})
    check("build-program: none before all below it", begun(one, [Check(crate("b"), 0, 100)], 90) == set())
    check("build-program: and then it", begun(one, [], 100) == {"c"})
    # While b runs there is a processor for a, but then c and e, for which d waits, need both.
    both = crate("c", "b", work=SHORT), crate("e", "b", work=SHORT)
    last = crate("d", "b", "c", "e", work=SHORT / 3), crate("f", "a", "b", "c", "d", "e", work=SHORT / 3)
    one = plan(crate("a", work=SHORT), crate("b", work=SHORT / 30), *both, *last, jobs=2)
    got = begun(one), begun(one, [], SHORT / 30)
    check("build-program: a crate waits for those that more wait for", got == ({"b"}, {"c", "e"}), got)


def test_processors() -> None:
    got = begun(plan(crate("a", work=SHORT), crate("b", work=SHORT), crate("c", work=SHORT), jobs=2))
    check("build-program: as many as there are processors", len(got) == 2, got)
    got = begun(plan(crate("a"), crate("b")), [Check(crate("c"), 0, 100)], 50)
    check("build-program: beside one that is at work", got == {"a", "b"}, got)
    got = begun(plan(crate("a"), jobs=1), [Check(crate("b"), 0, 100)], 50)
    check("build-program: none where all processors are taken", not got, got)


def test_memory() -> None:
    a, b = crate("a"), crate("b")
    got = begun(plan(a, crate("b", "a"), size=1))
    check("build-program: one alone begins in any memory", got == {"a"}, got)
    check("build-program: two that fit", begun(plan(a, b, size=2000)) == {"a", "b"})
    got = begun(plan(a, b, size=1900))
    check("build-program: one waits that would fit now, and not later", len(got) == 1, got)
    got = begun(plan(b, size=1900), [Check(a, 0, 100)], 90)
    check("build-program: and begins where the other ends soon", got == {"b"}, got)


def processors(made: Plan, at_work: Sequence[Check] = (), now: float = 0) -> dict[str, int]:
    """Returns the processors of the checks that begin now."""
    return {it.crate.name: it.processors for it in made.begin([*at_work], now, 1)}


def test_idle_processors() -> None:
    got = processors(plan(crate("a", work=900)))
    check("build-program: a crate that is alone gets all processors", got == {"a": 4}, got)
    got = processors(plan(crate("a", work=900), crate("b", "a", work=900)))
    check("build-program: and the last two of a chain, one after the other", got == {"a": 4}, got)
    got = processors(plan(crate("a", work=900)), [Check(crate("z"), 0, 100)])
    check("build-program: beside one at work the others that are idle", got == {"a": 3}, got)
    got = processors(plan(*(crate(it, work=900) for it in "abcd")))
    check("build-program: four beside one another have one each", got == dict.fromkeys("abcd", 1), got)
    got = processors(plan(crate("a", work=900), crate("b", work=900)))
    check("build-program: two beside one another share them", got == {"a": 2, "b": 2}, got)
    got = processors(plan(crate("a", work=900, size=4000), size=6100))
    check("build-program: one that is alone gets as many as there is memory for", got == {"a": 3}, got)
    got = processors(plan(crate("a", work=900, size=4000), size=3000))
    check("build-program: and one processor in any memory", got == {"a": 1}, got)
    got = processors(plan(crate("a", work=900, size=4000), size=8100), [Check(crate("z", size=3000), 0, 5000)])
    check("build-program: beside another as many as there is memory for", got == {"a": 1}, got)
    got = processors(plan(crate("a", work=15)))
    check("build-program: none for a check that only loads", got == {"a": 1}, got)
    measured = Crate("a", [], set(), "", 900, 1000, 0.42)
    check("build-program: what was measured", abs(measured.seconds(4) - 378) < 1 and measured.seconds(1) == 900, measured.seconds(4))
    check("build-program: without a measure about the same", 350 < crate("a", work=900).seconds(4) < 400, crate("a", work=900).seconds(4))


def minutes_of_build(jobs: int, room: float) -> float:
    """Returns how long the whole build takes by the plan, if each check takes what the model says."""
    made, at_work, now = Plan(longest_way_first(crates_of()), jobs, room), [], 0.0
    while begun := [*at_work, *made.begin(at_work, now, 1)]:
        ended = min(begun, key=lambda it: it.end)
        at_work, now = [it for it in begun if it is not ended], ended.end
    return now / 60


def test_whole_build() -> None:
    """By the model the whole build is done sooner than with one processor for each check."""
    crates = longest_way_first(crates_of())
    narrow, got = Plan(crates, 4, 8e9).end_of(crates, {}, [], 0, 1) / 60, minutes_of_build(4, 8e9)
    check("build-program: the whole is done in three quarters of the time", got <= 0.75 * narrow, (got, narrow))


def test_crates() -> None:
    crates = crates_of()
    missing = [name for name, it in crates.items() if it.below - crates.keys()]
    check("build-program: the crates of the program, with all below them", len(crates) > 1 and not missing, missing)


TESTS = (test_order, test_processors, test_memory, test_idle_processors, test_whole_build, test_crates)
