"""Reads from `meson fault` what a fault is about, and finds where that is in a call."""
from __future__ import annotations

import re

from tools import records as dataclasses
from tools.explaining.detail import WIDEST
from tools.porting import tree

# The forms of a report: what it is about, and what is so of that.
FORMS = (
    re.compile(r"keyword '(?P<keyword>\w+)': (?P<so>.*)", re.S), re.compile(r"argument (?P<number>\d+): (?P<so>.*)", re.S),
    re.compile(r"option '(?P<option>.*?)': (?P<so>.*)", re.S), re.compile(r"section '(?P<section>.*)': (?P<so>.*)", re.S),
    re.compile(r"output '(?P<output>.*)': (?P<so>.*)", re.S), re.compile(r"target '(?P<target>.*)': (?P<so>.*)", re.S),
    re.compile(r"language '(?P<language>.*)': (?P<so>.*)", re.S),
    re.compile(r"\[(?P<section>.*?)\] key '(?P<key>.*?)': (?P<so>.*)", re.S), re.compile(r"'(?P<text>.*)': (?P<so>.*)", re.S),
    re.compile(r"(arguments|statement|line|a list of the target|\[(?P<section>.*?)\] line): (?P<so>.*)", re.S),
    re.compile(r"key '(?P<entry>.*)': (?P<so>.*)", re.S), re.compile(r"(?P<method>\w+): (?P<so>takes .*)", re.S),
)
# How it begins where a value is of another kind than is taken there, and what it ends with.
TAKES, GOT = "takes ", ", and got "
MISSING, TWICE, NONE, LEFT = "is missing, and is needed", "occurs twice", "there is none", "is left out"
# The beginning of a report about what a function or method needs in addition to its row; and the end of one about a name that can't be set.
NEEDS, UNSETTABLE = "needs ", "is no name that can be set"


@dataclasses.dataclass(frozen=True)
class FaultReport:
    """Holds the whole report, empty if there is none; the thing that it is about, by its form; and what the report says of that thing."""
    whole: str = ""
    so: str = ""
    keyword: str | None = None
    number: str | None = None
    option: str | None = None
    section: str | None = None
    key: str | None = None
    text: str | None = None
    entry: str | None = None
    method: str | None = None
    output: str | None = None
    target: str | None = None
    language: str | None = None

    @property
    def shown(self) -> str:
        """Returns the whole report, cut if it is too long to be read."""
        return self.whole if len(self.whole) <= WIDEST else self.whole[:WIDEST - 2] + ".."

    @property
    def name(self) -> str | None:
        """Returns the name that the report consists of; none if it says more."""
        return self.whole if self.whole and not self.so else None

    @property
    def kind(self) -> str | None:
        """Returns what is taken there, in words, if something else was given."""
        return self.so.removeprefix(TAKES).partition(GOT)[0] if self.so.startswith(TAKES) else None

    @property
    def function(self) -> str | None:
        """Returns the name of the function or method that it is about, if it says that."""
        return self.text if self.so.startswith(NEEDS) else self.method

    def words_of(self, call: tree.Call) -> list[tree.Keyword]:
        """Returns the places where a call has the keyword that it is about."""
        return [it for it in call.items if isinstance(it, tree.Keyword) and it.name == self.keyword]

    def may_be_of(self, call: tree.Call) -> bool:
        """Returns whether the report may be about this call."""
        if self.keyword is not None:
            return not self.words_of(call) if self.so == MISSING else len(self.words_of(call)) > (self.so == TWICE)
        if self.function is not None:
            return call.name == self.function and (self.method is None or call.receiver is not None)
        return self.number is None or len(call.arguments) >= int(self.number)

    def value_in(self, call: tree.Call) -> tree.Node | None:
        """Returns the value that the report is about, in a call that it may be about."""
        if self.number is not None:
            return call.arguments[int(self.number) - 1]
        words = self.words_of(call)
        return words[-1].value if words else None


def report_of(whole: str) -> FaultReport:
    found = next((it for form in FORMS if (it := form.fullmatch(whole))), None)
    return FaultReport(whole, **found.groupdict()) if found else FaultReport(whole)
