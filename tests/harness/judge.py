"""Compares the results of a run with those that its case requires."""
import difflib
import itertools
import json
import re

from tests.harness.asked import asked_differs, questions_of
from tests.harness.form import FormError, HOLE, fault_of, written_out

# The words of each fault, after its number.
WORDS = {
    1: "not UTF-8", 2: "token", 3: "grammar", 4: "nesting over 64", 5: "undefined name", 6: "type in operator or condition",
    7: "number range or zero divisor", 8: "unknown function or method", 9: "arguments", 10: "index or key", 11: "duplicate",
    12: "subdir refused", 13: "project call", 14: "file missing", 15: "option", 16: "machine file", 17: "required thing not found",
    18: None, 19: "template", 20: "frozen configuration data", 21: "a name Ninja can't hold", 22: "limit", 23: "left out by name",
    24: "arguments added after a target",
}

# The faults that name what they are of.
NAMED = {5, 8, 14, 17}

# What the program says where a device failed, and where memory ran out.
SAID = {2: b"meson: device fault\n", 3: b"meson: out of memory\n"}

FAULT_LINE = re.compile(rb"[^\n]+:[0-9]+: ERROR: E([0-9]+) [^\n]*\n")

DOCUMENT = "meson-info/introspect.json"

# The outputs that are synced before they are renamed. No call reports that a later write to the others was lost.
SYNCED = ("build.ninja", DOCUMENT)

# The events of a run: an output is begun, gets bytes and is ended; there are bytes of the log, and of a fault's line.
EVENTS = ("open", "bytes", "close", "log", "fault")

# The suffix of an output that is begun and not ended. No output's name can end so, since '|' is refused there.
UNENDED = "|new"


class Expected:
    """Holds the required results of a run: its status, log and complaints, and parts of its outputs."""

    def __init__(self):
        self.status = 0
        # Of a stream the whole, the parts that it must have, and those that it must not have.
        self.log, self.log_parts, self.log_lacks = b"", [], []
        self.complaint, self.complaint_parts, self.complaint_lacks = None, [], []
        # Each a name, how it is compared, and a text.
        self.outputs = []
        self.absent = []
        self.edges, self.no_edges = [], []
        self.values = []
        self.looks = None
        # The events in their order, each a word and its bytes, or none if it may have any.
        self.order = None
        # Whether the run reports its questions; the texts of those after the call of 'project', and of those of that call.
        self.tells, self.asked, self.asked_by_project = False, None, None
        # What 'fault' writes to the log about the run's fault, if the case says so.
        self.about = None
        # The paths below which nothing may change.
        self.stays = []
        self.says = False

    def take(self, word, text, content, names, where):
        """Takes one directive; 'where' is the place of a fault that is given without one."""
        out = lambda text: written_out(text, names)
        line = out(text.replace("¶", "\n"))
        short = fault_of(f"{word} {text}")
        if short:
            self.refuse(self.fault_line(short, where, out))
        elif word == "fault":
            self.refuse(line)
        elif word == "ok":
            self.says = True
        elif word == "status":
            self.take_status(int(text))
        elif word in ("log", "complaint"):
            self.take_stream(word, text, line, out(content))
        elif word == "out":
            self.take_output(text, content, out)
        elif word == "no":
            self.take_none(text, out)
        elif word == "edge":
            self.says = True
            self.edges.append((line, [it.strip() for it in out(content).split(b"\n") if it.strip()]))
        elif word == "json":
            self.take_value(text, out)
        elif word in ("has", "lacks"):
            self.outputs.append(("build.ninja", word, line))
        elif word == "looks":
            self.looks = {out(it).decode() for it in text.split()}
        elif word == "order":
            self.take_order(content, out)
        elif word == "asks":
            self.take_questions(text, out(content).decode(), out)
        elif word == "about":
            self.about, self.says = (b"" if text == "nothing" else line) + b"\n", True
        elif word == "stays":
            self.says = True
            self.stays += [out(it).decode() for it in text.split()]
        else:
            raise FormError(f"'{word}' says nothing of what comes")

    def take_status(self, status):
        self.status, self.says = status, True
        if status in SAID and self.complaint is None:
            self.complaint = SAID[status]

    def take_value(self, text, out):
        path, equals, value = text.partition(" = ")
        if not equals:
            raise FormError(f"'json {text}' has no ' = '")
        self.says = True
        self.values.append((path.strip(), json.loads(out(value))))

    def refuse(self, line):
        self.status, self.complaint, self.says = 1, line + b"\n", True

    def fault_line(self, short, where, out):
        number, place, rest = int(short[1]), short[2] or where, short[3]
        if number not in WORDS or not place:
            raise FormError(f"'{short[0]}' is no fault, or has no place")
        words = WORDS[number] if WORDS[number] is not None else rest
        if number in NAMED or (rest and WORDS[number] is not None):
            words = f"{words}: {rest}"
        if words is None or (number in NAMED and rest is None):
            raise FormError(f"'{short[0]}' has to say what stands behind its words")
        place = place if ":" in place else f"meson.build:{place}"
        return out(f"{place}: ERROR: E{number} {words}".replace("¶", "\n"))

    def take_stream(self, word, text, line, content):
        self.says = True
        if text.startswith(("has ", "lacks ")):
            how, _, part = line.partition(b" ")
            parts = {("log", b"has"): self.log_parts, ("log", b"lacks"): self.log_lacks,
                     ("complaint", b"has"): self.complaint_parts, ("complaint", b"lacks"): self.complaint_lacks}
            parts[word, how].append(part)
            if word == "log":
                self.log = None
            return
        whole = line + b"\n" if text else content
        if word == "log":
            self.log = whole
        else:
            self.complaint = whole

    def take_output(self, text, content, out):
        path, _, how = text.rpartition(" ")
        if how not in ("has", "lacks", "begins", "ends"):
            path, how = text, "is"
        self.outputs.append((out(path).decode(), how, out(content)))
        self.says = True

    def take_order(self, content, out):
        """Takes the expected events, one in a line; the log is that of its events."""
        self.says, self.order = True, []
        for line in content.splitlines():
            word, _, text = line.partition(" ")
            if word not in EVENTS:
                raise FormError(f"'{line}' is no event: {', '.join(EVENTS)}")
            self.order.append((word, out(text.replace("¶", "\n")) or None))
        of_log = [text for word, text in self.order if word == "log"]
        self.log = None if None in of_log else b"".join(of_log)

    def order_differs(self, came):
        """Returns what differs of the order of the events, if the case says it and the run shows it."""
        if self.order is None or came is None:
            return []
        pairs = itertools.zip_longest(self.order, came, fillvalue=("", b""))
        # What may have any bytes has those that came.
        wanted = [(word, of_came[1] if text is None and word else text or b"") for (word, text), of_came in pairs]
        return differing("order", lines_of_events(wanted[: len(self.order)]), lines_of_events(came))

    def take_questions(self, text, content, out):
        """Demands questions after the call of 'project', or with the word 'project' those of that call. Several directives add up."""
        self.says, self.tells, self.log = True, True, None
        lines = [it for it in content.split("\n") if it] or [out(text.replace("¶", "\n")).decode()]
        if text == "project" and content:
            self.asked_by_project = (self.asked_by_project or []) + lines
        else:
            self.asked = (self.asked or []) + lines

    def questions_differ(self, log):
        """Returns what differs of the reported questions, if the case says which must come."""
        if not self.tells:
            return []
        wanted = [None if texts is None else questions_of(texts) for texts in (self.asked, self.asked_by_project)]
        return asked_differs(*wanted, log)

    def take_none(self, text, out):
        kind, _, what = text.partition(" ")
        if kind == "out":
            self.absent.append(out(what).decode())
        elif kind == "edge":
            self.no_edges.append(out(what))
        else:
            raise FormError(f"'no {text}' is 'no out NAME' or 'no edge TEXT'")

    def differences(self, came):
        """Returns what differs, each a text of some lines; none if all is as it must be."""
        found = [] if came.status == self.status else [f"status: {self.status} must come, and {came.status} came"]
        found += differing("log", self.log, came.log)
        found += parts_differ("log", self.log_parts, self.log_lacks, came.log)
        complaint = b"" if self.complaint is None and self.status == 0 else self.complaint
        found += differing("complaint", complaint, came.complaint)
        found += parts_differ("complaint", self.complaint_parts, self.complaint_lacks, came.complaint)
        for path, how, text in self.outputs:
            unended = came.outputs.get(path + UNENDED) if came.status != 0 else None
            if came.status == 0 or path not in came.given_up():
                found += self.output_differs(path, how, text, came.outputs.get(path, unended))
        found += [f"{it} is left" for it in came.left_over()]
        absent = self.absent + ["build.ninja"] * (self.status != 0 and not any(it[0] == "build.ninja" for it in self.outputs))
        found += [f"there is an output {it}" for it in absent if it in came.outputs]
        found += [f"there is a {came.others[it]} at the place of the output {it}" for it in self.absent if it in came.others]
        found += came.changes
        found += self.questions_differ(came.log)
        found += [f"there is an output {it}, and questions write none" for it in sorted(came.outputs) if self.tells]
        found += self.edges_differ(came.outputs.get("build.ninja", b""))
        found += self.values_differ(came.outputs.get(DOCUMENT))
        found += self.order_differs(came.order)
        if self.looks is not None and came.looks is not None and self.looks != came.looks:
            found.append(f"looked at: {sorted(self.looks)} must come, and {sorted(came.looks)} came")
        return found

    @staticmethod
    def output_differs(path, how, text, bytes_):
        if bytes_ is None:
            return [f"there is no output {path}"]
        if how == "is":
            return differing(path, text, bytes_)
        holds = {"has": text in bytes_, "lacks": text not in bytes_, "begins": bytes_.startswith(text), "ends": bytes_.endswith(text)}[how]
        if not holds and how in ("begins", "ends"):
            lines, count = bytes_.split(b"\n"), len(text.split(b"\n"))
            part = b"\n".join(lines[:count] if how == "begins" else lines[-count:])
            return differing(f"how {path} {how}", text, part) or [f"{path} {how} otherwise: {shown(part)}"]
        word = {"has": "has not", "lacks": "has"}.get(how)
        return [] if holds else [f"{path} {word}\n{shown(text)}\nit is\n{shown(bytes_)}"]

    def edges_differ(self, text):
        paragraphs = [[line.strip() for line in it.split(b"\n") if line.strip()] for it in text.split(b"\n\n")]
        found = []
        for first, lines in self.edges:
            fits = [it for it in paragraphs if it and it[0] == first]
            if not fits:
                near = difflib.get_close_matches(shown(first), [shown(it[0]) for it in paragraphs if it], 1, 0.3)
                found.append(f"there is no edge\n{shown(first)}" + (f"\nthe nearest is\n{near[0]}" if near else ""))
            for line in lines if fits else ():
                if line not in fits[0]:
                    found.append(f"the edge '{shown(first)}' has no line\n{shown(line)}\nit is\n{shown(chr(10).encode().join(fits[0]))}")
        begun = [it for it in self.no_edges if any(p and p[0].startswith(it) for p in paragraphs)]
        found += [f"there is an edge that begins with {shown(it)}" for it in begun]
        return found

    def values_differ(self, text):
        if not self.values:
            return []
        if text is None:
            return [f"there is no output {DOCUMENT}"]
        document, found = json.loads(text), []
        for path, value in self.values:
            has = document
            try:
                for step in re.findall(r"[^.\[\]]+", path):
                    has = has[int(step)] if isinstance(has, list) else has[step]
            except (KeyError, IndexError, ValueError):
                found.append(f"the document has no {path}")
                continue
            if has != value:
                found.append(f"{path}: {json.dumps(value)} must come, and {json.dumps(has)} came")
        return found


def shown(text):
    """Returns a text as it is shown: what can't be read by its number, long parts left out."""
    text = text.decode("utf-8", "backslashreplace")
    text = "".join(c if c.isprintable() or c == "\n" else f"«x {c.encode('utf-8', 'replace').hex(' ')}»" for c in text)
    return text if len(text) < 4000 else f"{text[:2000]}\n[..]\n{text[-1500:]}"


def lines_of_events(order: list) -> bytes:
    """Returns events as a case writes them."""
    return b"".join(word.encode() + b" " + text.replace(b"\n", "¶".encode()) + b"\n" for word, text in order)


def parts_differ(name: str, has: list, lacks: list, came: bytes) -> list:
    """Returns what a stream lacks of the parts that it must have, and has of those that it must not have."""
    found = [f"the {name} has no\n{shown(it)}\nit is\n{shown(came)}" for it in has if it not in came]
    return found + [f"the {name} has\n{shown(it)}\nit is\n{shown(came)}" for it in lacks if it in came]


def differing(name, wanted, came):
    """Returns what differs between two texts: short ones one above the other, others line by line."""
    if wanted is None or wanted == came:
        return []
    wanted, came = shown(wanted).removesuffix("\n").split("\n"), shown(came).removesuffix("\n").split("\n")
    if wanted == came:
        return [f"{name}: only one of the texts ends with a newline"]
    if len(wanted) <= 3 and len(came) <= 3:
        inside = lambda lines: "\n".join(f"  {line}" if line else "  (nothing)" for line in lines)
        return [f"{name}: this must come\n{inside(wanted)}\nand this came\n{inside(came)}"]
    lines = list(difflib.unified_diff(wanted, came, lineterm="", n=2))[2:]
    return [f"{name}: '-' must come, '+' came\n" + "\n".join(line for line in lines if not line.startswith("@@"))]


def row_place(items, columns, names):
    """Returns the place of the first hole of a table, as a fault reports it."""
    word = 0
    for it in items:
        word += it.word == "word"
        if it.word == "word" and HOLE.search(it.text):
            return f"<command line>:{word}"
        at = HOLE.search(it.content)
        if at:
            head = b"\n" * (it.word == "L2") + written_out(filled(it.content[: at.start()], columns), names)
            file = {"L2": "meson.build", "machine": "<machine file>"}.get(it.word) or written_out(filled(it.text, columns), names).decode()
            return f"{file}:{head.count(bytes([10])) + 1}"
    return None


def filled(text, columns):
    """Returns a text of a table with a row's columns in its holes, and no newline after its mark «end»."""
    text = HOLE.sub(lambda it: columns[int(it[1] or 1) - 1], text) if columns else text
    return text.removesuffix("«end»\n")


def result_parts(case):
    """Returns the directives that a row's result abbreviates: a word and the rest of its line."""
    words = "log|fault|status|complaint|has|lacks|json|out|no|edge|looks|stays|asks|about"
    parts = re.split(rf" & (?=(?:ok$|E\d+(?:$| at |: )|(?:{words}) ))", case.result)
    made = []
    for number, part in enumerate(parts):
        word = part.partition(" ")[0]
        known = fault_of(part) or word == "ok" or (word in words.split("|") and word != "out")
        if case.prints and number == 0 and not fault_of(part):
            made.append(("log", f"Message: {part}"))
        elif known:
            made.append((word, part[len(word) + 1 :]))
        else:
            raise FormError(f"'{part}' says nothing of what comes")
    return made
