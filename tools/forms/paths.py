"""Paths: the keys that lead from a read's value to a tag's.

In JSON a path is a text such as ".Zones[3].Weight", or the list of its keys: ".Zones" a member, 3 an item, {"first": 3} the
first of several indexes, which a text has as [3,..]. The list can say any name, also one with a dot.
"""
import re

from .faults import Misfit, quoted
from .fields import Number, Text
from .shapes import Row, members_of

NAME, INDEX = Text(128), Number(4)
STEP = re.compile(r"\.([^.\[\]]+)|\[([0-9]{1,10})\]|\[([0-9]{1,10}),\.\.\]")


class Key:
    """A key byte, then a member's name or a number."""

    def read(self, reader, where):
        kind = reader.choice(("member", "item", "first"), where)
        if kind == "member":
            return "." + NAME.read(reader, where)
        number = INDEX.read(reader, where)
        return number if kind == "item" else {"first": number}

    def lay(self, value, where):
        if isinstance(value, str) and value.startswith("."):
            return b"\0" + NAME.lay(value[1:], where)
        if isinstance(value, int):
            return b"\1" + INDEX.lay(value, where)
        if isinstance(value, dict) and list(members_of(value, where)) == ["first"]:
            return b"\2" + INDEX.lay(value["first"], where)
        raise Misfit(where, f"{quoted(value)} is no key: a member is \".name\", an item its number")


def keys_of(words, where):
    """The keys that a text says."""
    keys, at = [], 0
    while at < len(words):
        step = STEP.match(words, at)
        if not step:
            raise Misfit(where, f"{quoted(words)} is no path from {quoted(words[at:])} on")
        name, index, first = step.groups()
        keys.append("." + name if name else int(index) if index else {"first": int(first)})
        at = step.end()
    return keys


def text_of(keys):
    """Keys as a text, where it says the same keys again; else the keys."""
    steps = [key if isinstance(key, str) else f"[{key['first']},..]" if isinstance(key, dict) else f"[{key}]" for key in keys]
    exact = all(STEP.fullmatch(step) for step in steps)
    return "".join(steps) if keys and exact else keys


class Path:
    """A key count and keys."""

    keys = Row(1, 64, Key())

    def read(self, reader, where):
        return text_of(self.keys.read(reader, where))

    def lay(self, value, where):
        if not isinstance(value, (str, list)):
            raise Misfit(where, f"{quoted(value)} is no path")
        return self.keys.lay(keys_of(value, where) if isinstance(value, str) else value, where)
