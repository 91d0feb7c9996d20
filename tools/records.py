"""Makes classes of plain data as `dataclasses` does, with the small part of it that these scripts use.

`dataclasses` takes as long to load as a whole script, and most of a millisecond for each class, since it compiles each method. A type
checker reads the calls below as those of `dataclasses`.
"""
from __future__ import annotations

TYPE_CHECKING = False
if TYPE_CHECKING:
    from dataclasses import astuple, dataclass, field, replace
    from typing import Any
else:
    MISSING = object()

    class Made:
        """Holds the function that makes the value of a field that is not given."""

        def __init__(self, make):
            self.make = make

    def field(*, default_factory):
        return Made(default_factory)

    def dataclass(cls=None, *, frozen=False, eq=True):
        """Gives a class the methods of a record; with words, what does so."""
        return made(cls, frozen, eq) if cls is not None else lambda it: made(it, frozen, eq)

    def made(cls, frozen, eq):
        defaults = {}
        for base in reversed(cls.__mro__):
            defaults |= base.__dict__.get("__fields__", {})
        defaults |= {name: cls.__dict__.get(name, MISSING) for name in cls.__dict__.get("__annotations__", {})}
        cls.__fields__, cls.__match_args__ = defaults, tuple(defaults)
        for name, default in defaults.items():
            if isinstance(default, Made) and name in cls.__dict__:
                delattr(cls, name)
        cls.__init__, cls.__repr__ = filled_by_place(tuple(defaults)), shown
        if eq:
            cls.__eq__ = equals
            cls.__hash__ = hashed if frozen else None
        if frozen:
            cls.__setattr__ = refuse
        return cls

    def filled_by_place(names):
        """Returns the method `__init__`, which is quick where each field is given by its place."""
        count = len(names)

        def fill(self, *values, **named):
            if len(values) == count and not named:
                self.__dict__.update(zip(names, values))
            else:
                filled(self, values, named)
        return fill

    def filled(self, values, named):
        """Gives a record its fields, of which some are named or have their defaults."""
        fields = self.__fields__
        given = self.__dict__
        if len(values) > len(fields):
            raise TypeError(f"{type(self).__name__} takes {len(fields)} values")
        given.update(zip(fields, values))
        for name, value in named.items():
            if name in given or name not in fields:
                raise TypeError(f"{type(self).__name__} takes no further {name!r}")
            given[name] = value
        if len(given) < len(fields):
            for name, default in fields.items():
                if name not in given:
                    if default is MISSING:
                        raise TypeError(f"{type(self).__name__} needs {name!r}")
                    given[name] = default.make() if isinstance(default, Made) else default

    def values_of(self):
        return tuple(self.__dict__[name] for name in self.__fields__)

    def shown(self):
        return f"{type(self).__name__}({', '.join(f'{name}={value!r}' for name, value in zip(self.__fields__, values_of(self)))})"

    def equals(self, other):
        return values_of(self) == values_of(other) if type(other) is type(self) else NotImplemented

    def hashed(self):
        return hash(values_of(self))

    def refuse(self, name, value):
        raise AttributeError(f"{type(self).__name__} is not changed: {name!r}")

    def astuple(record):
        """Returns the values of the fields, in their order."""
        return values_of(record)

    def replace(record, **changes):
        """Returns another record with some fields changed."""
        return type(record)(**{**{name: record.__dict__[name] for name in record.__fields__}, **changes})
