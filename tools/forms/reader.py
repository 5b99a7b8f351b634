"""Reads the bytes of a file front to back."""
from .faults import Refused


class Reader:
    """The place reached, and the end of what is being read: of the file, or of the value that encloses the field."""

    def __init__(self, data):
        self.data, self.at, self.end = data, 0, len(data)
        self.again = None  # the place and words of the first member name that stands in its struct already

    def left(self):
        return self.end - self.at

    def take(self, count, field, where):
        """So many bytes of the field that starts at a place."""
        if self.left() < count:
            raise Refused(3, field, f"{where or 'a field'} runs past the end")
        self.at += count
        return self.data[self.at - count:self.at]

    def number(self, width, where):
        return int.from_bytes(self.take(width, self.at, where), "big")

    def choice(self, words, where):
        """The word of a byte that counts from 0."""
        field = self.at
        byte = self.number(1, where)
        if byte >= len(words):
            raise Refused(4, field, f"{where or 'a field'} has the byte {byte}, not one of 0 to {len(words) - 1}")
        return words[byte]

    def finish(self, what):
        """Nothing may be left."""
        if self.left():
            raise Refused(3, self.at, f"bytes left over behind {what}: {self.left()}")
