"""Reads the questions that a case requires of a run, and finds where those of the run differ."""
import dataclasses
import json
import re

from tests.harness.form import FormError

# The keys of a line, in their order.
KEYS = ["section", "key", "answer", "file", "line", "beside"]

# A question up to its answer: its section, and its key if it has one.
HEAD = re.compile(r"\[(?P<section>[^\]]*)\](?: (?P<key>.*?))?: ", re.S)

# What may follow an answer: a place, and what else the call says.
TAIL = re.compile(r"(?: at (?:(?P<file>[^:]+):)?(?P<line>\d+))?(?: beside (?P<beside>\{.*\}))?\Z", re.S)

# What a case writes if no question may come.
NOTHING = "nothing"


def compact(value: object) -> str:
    """Returns a value as the program writes it: no blank between its parts, the keys of objects in their order."""
    return json.dumps(value, separators=(",", ":"), ensure_ascii=False)


@dataclasses.dataclass(frozen=True)
class Question:
    """Holds a question that must come. If it has no place, the place of the run's question isn't compared."""

    section: str
    key: str | None
    answer: str
    beside: str
    place: tuple | None

    def fits(self, line: dict) -> bool:
        """Returns whether a line reports this question."""
        same = (self.section, self.key, self.answer, self.beside) == (
            line["section"], line["key"], compact(line["answer"]), compact(line["beside"]))
        return same and self.place in (None, (line["file"], line["line"]))

    def __str__(self) -> str:
        place = f" at {self.place[0]}:{self.place[1]}" if self.place else ""
        return text_of(self.section, self.key, self.answer, self.beside) + place


def text_of(section: str, key: str | None, answer: str, beside: str) -> str:
    head = f"[{section}]" + (f" {key}" if key is not None else "")
    return f"{head}: {answer}" + (f" beside {beside}" if beside != "{}" else "")


def question_of(text: str) -> Question:
    """Returns the question that a text of a case spells: `[SECTION] KEY: ANSWER`, perhaps followed by ` at PLACE` and ` beside {..}`."""
    decoder = json.JSONDecoder()
    start = re.match(r"\[[^\]]*\]", text)
    for colon in re.finditer(": ", text) if start else ():
        head = HEAD.fullmatch(text[: colon.end()])
        try:
            answer, end = decoder.raw_decode(text, colon.end())
        except ValueError:
            continue
        tail = TAIL.match(text, end)
        if head and tail:
            place = (tail["file"] or "meson.build", int(tail["line"])) if tail["line"] else None
            beside = json.loads(tail["beside"] or "{}")
            return Question(head["section"], head["key"], compact(answer), compact(beside), place)
    raise FormError(f"'{text}' is no question: '[SECTION] KEY: ANSWER', and ' at PLACE' or ' beside {{..}}' behind it")


def questions_of(texts: list) -> list:
    """Returns the questions of some texts; none for the word 'nothing' alone."""
    return [] if texts == [NOTHING] else [question_of(it) for it in texts]


def lines_of(log: bytes) -> list:
    """Returns the lines that a program wrote, each an object. ValueError if one has another form than all must have."""
    lines = []
    for number, text in enumerate(log.decode().splitlines(keepends=True), 1):
        line = json.loads(text)
        if list(line) != KEYS or text != compact(line) + "\n":
            raise ValueError(f"line {number} has not the form of all lines: {text!r}")
        lines.append(line)
    return lines


def is_of_project(line: dict) -> bool:
    """Returns whether this question is of the call of 'project', which is the first line of the root's file."""
    return (line["file"], line["line"]) == ("meson.build", 1)


def shown_line(line: dict) -> str:
    return text_of(line["section"], line["key"], compact(line["answer"]), compact(line["beside"])) + f" at {line['file']}:{line['line']}"


def differing_questions(wanted: list, came: list, name: str) -> list:
    """Returns where the questions that came are not those that must come, in their order."""
    for number, (question, line) in enumerate(zip(wanted, came), 1):
        if not question.fits(line):
            return [f"{name}, question {number}: this must come\n  {question}\nand this came\n  {shown_line(line)}"]
    if len(wanted) > len(came):
        return [f"{name}: this is not asked\n  {wanted[len(came)]}"]
    return [f"{name}: this is asked too\n  {shown_line(it)}" for it in came[len(wanted) :][:1]]


def asked_differs(behind: list | None, of_project: list | None, log: bytes) -> list:
    """Returns what differs of the questions that a run reports: those after the call of 'project', and those of that call. A line occurs
    once."""
    try:
        lines = lines_of(log)
    except ValueError as error:
        return [f"the questions: {error}"]
    labels = [compact([line[key] for key in KEYS if key not in ("file", "line")]) for line in lines]
    found = [f"this is told twice\n  {shown_line(line)}" for number, line in enumerate(lines) if labels[number] in labels[:number]]
    if behind is not None:
        found += differing_questions(behind, [it for it in lines if not is_of_project(it)], "asked")
    if of_project is not None:
        found += differing_questions(of_project, [it for it in lines if is_of_project(it)], "asked by project")
    return found
