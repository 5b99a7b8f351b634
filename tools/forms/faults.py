"""What can be wrong: a file that the planner refuses, or a JSON text that does not fit. And how a place in JSON is written."""
import json
import re


class Refused(Exception):
    """A file is refused: the number of the cause, what the planner returns with it, and the cause in words."""

    def __init__(self, number, returned, words):
        super().__init__(f"refused, {number}, {'limit' if number == 1 else 'byte'} {returned}: {words}")
        self.number, self.returned = number, returned


class Misfit(Exception):
    """A JSON text does not fit: where in it, and why."""

    def __init__(self, where, words):
        super().__init__(f"{where}: {words}" if where else words)


def under(where, name):
    """The place of a field in the object at a place."""
    if not re.fullmatch(r"\w+", name, re.ASCII):
        return f"{where}[{json.dumps(name)}]"
    return f"{where}.{name}" if where else name


def item(where, position):
    """The place of an entry in the list at a place."""
    return f"{where}[{position}]"


def quoted(value):
    """A JSON value for a message, shortened where it is long."""
    try:
        words = json.dumps(value)
    except RecursionError:
        words = "what is nested here"
    return words if len(words) <= 60 else words[:56] + " ..."
