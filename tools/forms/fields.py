"""Single fields: numbers, texts, bytes that stand for a word, and fields that may be missing.

Each has `read`, from a file to a JSON value, and `lay`, from a JSON value to bytes. `where` is the place in the JSON text.
"""
import re

from .faults import Misfit, Refused, quoted


class Number:
    """An unsigned number, big-endian."""

    def __init__(self, width, most=None):
        self.width, self.most = width, 256 ** width - 1 if most is None else most

    def read(self, reader, where):
        field = reader.at
        number = reader.number(self.width, where)
        if number > self.most:
            raise Refused(5, field, f"{where} is {number}, over {self.most:,}")
        return number

    def lay(self, value, where):
        if not isinstance(value, int) or isinstance(value, bool):
            raise Misfit(where, f"{quoted(value)} is no whole number")
        if value < 0:
            raise Misfit(where, f"{value} is below 0")
        if value > self.most:
            raise Misfit(where, f"{quoted(value)} is over {self.most:,}")
        return value.to_bytes(self.width, "big")


class Text:
    """A length byte, then characters 32 to 126. In some names the numbers behind `[`, `,` and `{` have a limit."""

    def __init__(self, most, digits=None):
        self.most, self.digits = most, digits

    def too_large(self, words):
        """The first number over its limit."""
        for found in re.finditer(r"[\[,{]([0-9]+)", words) if self.digits else ():
            if int(found[1]) > self.digits:
                return found
        return None

    def read(self, reader, where):
        field = reader.at
        raw = reader.take(reader.number(1, where), field, where)
        for place, byte in enumerate(raw, field + 1):
            if not 32 <= byte <= 126:
                raise Refused(4, place, f"{where} has the byte {byte}, not one of 32 to 126")
        if len(raw) > self.most:
            raise Refused(5, field, f"{where} has {len(raw)} bytes, over {self.most}")
        words = raw.decode("ascii")
        large = self.too_large(words)
        if large:
            raise Refused(8, field + 1 + large.start(1), f"{where} has the number {large[1]}, over {self.digits:,}")
        return words

    def lay(self, value, where):
        if not isinstance(value, str):
            raise Misfit(where, f"{quoted(value)} is no text")
        for place, character in enumerate(value, 1):
            if not " " <= character <= "~":
                raise Misfit(where, f"character {place}, {quoted(character)}, may not stand in a text")
        if len(value) > self.most:
            raise Misfit(where, f"{len(value)} characters are over {self.most}")
        large = self.too_large(value)
        if large:
            raise Misfit(where, f"{large[1]} is over {self.digits:,}")
        return bytes([len(value)]) + value.encode("ascii")


class Choice:
    """A byte that stands for a word, from 0 on."""

    def __init__(self, *words):
        self.words = words

    def read(self, reader, where):
        return reader.choice(self.words, where)

    def lay(self, value, where):
        if not isinstance(value, str) or value not in self.words:
            raise Misfit(where, f"{quoted(value)} is none of {', '.join(self.words)}")
        return bytes([self.words.index(value)])


class Option:
    """A byte 0, or a byte 1 and a field."""

    def __init__(self, form):
        self.form = form

    def read(self, reader, where):
        return self.form.read(reader, where) if reader.choice((False, True), where) else None

    def lay(self, value, where):
        return b"\0" if value is None else b"\1" + self.form.lay(value, where)
