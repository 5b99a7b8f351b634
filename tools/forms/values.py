"""Values: leaves, arrays, structs and texts inside one another.

In JSON an array is a list, a struct an object, a text a string in UTF-8. A leaf is {"leaf": "2a000000"} with its bytes in
hexadecimal. Reading a file gives these alone, {"text": hexadecimal} for a text that is no UTF-8, and {"struct": {..}} for a
struct of one member that would look like one of the other objects. A leaf can also be written as a number with its type,
{"DINT": 42}, and an array of such leaves as {"DINT": [1, 2]}; their bytes are then little-endian.
"""
import math
import struct

from .faults import Misfit, Refused, item, quoted, under
from .fields import Text
from .shapes import members_of

LEVELS = 40
KINDS = ("leaf", "array", "struct", "text")
NAME = Text(128)
WHOLE = {"SINT": (1, True), "INT": (2, True), "DINT": (4, True), "LINT": (8, True),
         "USINT": (1, False), "UINT": (2, False), "UDINT": (4, False), "ULINT": (8, False),
         "BYTE": (1, False), "WORD": (2, False), "DWORD": (4, False), "LWORD": (8, False)}
BROKEN = {"REAL": "<f", "LREAL": "<d"}
TYPES = {"BOOL", *WHOLE, *BROKEN}
FORMS = {"leaf", "text", "struct", *TYPES}


def hexadecimal(value, where):
    try:
        return bytes.fromhex(value)
    except (TypeError, ValueError):
        raise Misfit(where, f"{quoted(value)} is not in hexadecimal, two digits a byte") from None


def whole_number(width, signed, value, where):
    if not isinstance(value, int) or isinstance(value, bool):
        raise Misfit(where, f"{quoted(value)} is no whole number")
    most = 256 ** width // (2 if signed else 1) - 1
    least = -most - 1 if signed else 0
    if not least <= value <= most:
        raise Misfit(where, f"{quoted(value)} is {'over' if value > most else 'below'} {most if value > most else least:,}")
    return value.to_bytes(width, "little", signed=signed)


def broken_number(layout, value, where):
    if not isinstance(value, (int, float)) or isinstance(value, bool):
        raise Misfit(where, f"{quoted(value)} is no number")
    try:
        if math.isfinite(value):
            return struct.pack(layout, value)
    except OverflowError:
        pass
    raise Misfit(where, f"{quoted(value)} is too large for this type")


def leaf_bytes(kind, value, where):
    """The bytes of a number of a type, little-endian. A BOOL is one byte, 0 or 1."""
    if kind == "BOOL":
        if not isinstance(value, int) or value not in (0, 1):
            raise Misfit(where, f"{quoted(value)} is neither true nor false")
        return bytes([value])
    if kind in WHOLE:
        return whole_number(*WHOLE[kind], value, where)
    return broken_number(BROKEN[kind], value, where)


def check_level(where, level):
    if level > LEVELS:
        raise Misfit(where, f"the value is at level {level}, over {LEVELS}")


def utf8(value, where):
    try:
        return value.encode("utf-8")
    except UnicodeEncodeError:
        raise Misfit(where, f"{quoted(value)} has half a character") from None


def counted(parts, where):
    """A count of two bytes and the parts of an array or struct."""
    if len(parts) > 65535:
        raise Misfit(where, f"{len(parts)} entries are over 65,535")
    return len(parts).to_bytes(2, "big") + b"".join(parts)


def framed(kind, body):
    """A value of a kind."""
    return (1 + len(body)).to_bytes(4, "big") + bytes([KINDS.index(kind)]) + body


class Value:
    """The length of what follows, a kind byte, and what the kind says. The outermost value is level 1."""

    def read(self, reader, where, level=1):
        place = reader.at
        length = reader.number(4, where or "the value")
        if length > reader.left():
            raise Refused(3, place, f"{where or 'the value'} has {length:,} bytes by its length, past the end")
        if level > LEVELS:
            raise Refused(10, place, f"{where} is at level {level}, over {LEVELS}")
        outer, reader.end = reader.end, reader.at + length
        kind = reader.choice(KINDS, where or "the value")
        value = getattr(self, f"read_{kind}")(reader, where, level)
        reader.finish(f"the last part of {where or 'the value'}")
        reader.end = outer
        return value

    def read_leaf(self, reader, where, _level):
        return {"leaf": reader.take(reader.left(), reader.at, where).hex()}

    def read_text(self, reader, where, _level):
        raw = reader.take(reader.left(), reader.at, where)
        try:
            return raw.decode("utf-8")
        except UnicodeDecodeError:
            return {"text": raw.hex()}

    def read_array(self, reader, where, level):
        count = reader.number(2, f"the count of {where or 'the value'}")
        return [self.read(reader, item(where, i), level + 1) for i in range(count)]

    def read_struct(self, reader, where, level):
        members = {}
        for _ in range(reader.number(2, f"the count of {where or 'the value'}")):
            place = reader.at
            name = NAME.read(reader, f"a member's name in {where or 'the value'}")
            if name in members and not reader.again:
                reader.again = place, f"{under(where, name)} stands there twice"
            members[name] = self.read(reader, under(where, name), level + 1)
        return {"struct": members} if len(members) == 1 and FORMS.issuperset(members) else members

    def lay(self, value, where, level=1):
        check_level(where, level)
        if isinstance(value, dict):
            return self.lay_object(members_of(value, where), where, level)
        if isinstance(value, list):
            return self.lay_array(value, where, level, self.lay)
        if isinstance(value, str):
            return framed("text", utf8(value, where))
        raise Misfit(where, f'{quoted(value)} is no value: a number has its type with it, as {{"DINT": 42}}')

    def lay_array(self, value, where, level, lay_item):
        items = [lay_item(x, item(where, i), level + 1) for i, x in enumerate(value)]
        return framed("array", counted(items, where))

    def lay_struct(self, members, where, level):
        parts = [NAME.lay(name, f"a member's name in {where or 'the value'}") + self.lay(x, under(where, name), level + 1)
                 for name, x in members_of(members, where).items()]
        return framed("struct", counted(parts, where))

    def lay_object(self, value, where, level):
        """An object with one name that says what it is; any other is a struct."""
        if len(value) != 1 or not FORMS.issuperset(value):
            return self.lay_struct(value, where, level)
        (form, rest), = value.items()
        if form == "struct":
            return self.lay_struct(rest, under(where, form), level)
        if form in TYPES:
            return self.lay_typed(form, rest, under(where, form), level)
        return framed(form, hexadecimal(rest, under(where, form)))

    def lay_typed(self, kind, value, where, level):
        """A number of a type, or a list of such."""
        check_level(where, level)
        if isinstance(value, list):
            return self.lay_array(value, where, level, lambda x, place, deeper: self.lay_typed(kind, x, place, deeper))
        return framed("leaf", leaf_bytes(kind, value, where))
