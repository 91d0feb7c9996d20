"""Writes machine files, and says what they can hold."""
BLANKS = " \t\r"
Sections = dict[str, dict[str, object]]


def can_hold(section: str, key: str | None) -> bool:
    """Returns whether a machine file can have this section and this key, which is cut at the first `=`, and of a check at the last."""
    plain = section if key is None else key
    is_word = plain == plain.strip(BLANKS) and plain != "" and plain.isprintable()
    return is_word and (section == "checks" or key is None or "=" not in key and key[0] not in "#[")


def is_written(text: str) -> bool:
    """Returns whether a text is one of UTF-8, as each of a machine file is; a path of the system needn't be."""
    return not any(0xD800 <= ord(it) < 0xE000 for it in text)


def spelled(value: object) -> str:
    if isinstance(value, (bool, int)):
        return str(value).lower()
    if isinstance(value, list):
        return "[" + ", ".join(map(spelled, value)) + "]"
    plain = str(value).replace("\\", "\\\\").replace("'", "\\'")
    return "'" + "".join(it if " " <= it < "\x7f" or it >= "\xa0" else f"\\x{ord(it):02x}" for it in plain) + "'"


def text_of(sections: Sections) -> str:
    """Returns the lines of the sections that say something."""
    section = lambda title, values: f"\n[{title}]\n" + "".join(f"{key} = {spelled(it)}\n" for key, it in values.items())
    return "".join(section(title, values) for title, values in sections.items() if values)
