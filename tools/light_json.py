"""Reads and writes JSON as `json` does, by its compiled part alone, which loads in no time."""
from __future__ import annotations

TYPE_CHECKING = False
if TYPE_CHECKING:
    from typing import Any

try:
    from _json import encode_basestring_ascii, make_encoder, make_scanner
except ImportError:
    import json

    loads = json.loads

    def dumps(value: object, has_blanks: bool = False) -> str:
        return json.dumps(value, separators=(", ", ": ") if has_blanks else (",", ":"))
else:
    class Plain:
        """Holds how values are read: each as `json` does it without further words."""
        strict, object_hook, object_pairs_hook, parse_float, parse_int = True, None, None, float, int

        @staticmethod
        def parse_constant(name: str) -> float:
            raise ValueError(f"{name} is no value")

    def refuse(value: object) -> object:
        raise TypeError(f"{type(value).__name__} is no value of JSON")

    SCAN = make_scanner(Plain)
    ENCODE, ENCODE_WITH_BLANKS = (make_encoder(None, refuse, encode_basestring_ascii, None, colon, comma, False, False, False)
                                  for colon, comma in ((":", ","), (": ", ", ")))

    def loads(text: str | bytes) -> Any:
        """Returns the value of a text. A ValueError says that it has none."""
        plain = (text.decode() if isinstance(text, bytes) else text).strip(" \t\r\n")
        try:
            value, end = SCAN(plain, 0)
        except (StopIteration, SystemError):  # the latter where `json` isn't loaded, which has the exception to be raised
            end = -1
        if end != len(plain):
            import json
            json.loads(text)
            raise ValueError("no value")
        return value

    def dumps(value: object, has_blanks: bool = False) -> str:
        """Returns the text of a value; with blanks it is as that of `json`."""
        return "".join((ENCODE_WITH_BLANKS if has_blanks else ENCODE)(value, 0))
