"""JSON texts: parsed so that a name standing twice is noticed, and shown with short parts on one line."""
import json

from .faults import Misfit

WIDTH = 120


class Object(dict):
    """A JSON object that remembers a name which stood in it twice."""

    def __init__(self, pairs):
        super().__init__()
        self.twice = None
        for name, value in pairs:
            if name in self and self.twice is None:
                self.twice = name
            self[name] = value


def no_number(word):
    raise Misfit("", f"{word} is no number of JSON")


def parsed(raw):
    """The JSON value of a text's bytes."""
    try:
        return json.loads(raw.decode("utf-8-sig"), object_pairs_hook=Object, parse_constant=no_number)
    except UnicodeDecodeError as fault:
        raise Misfit("", f"the text is not in UTF-8, at byte {fault.start}") from None
    except json.JSONDecodeError as fault:
        raise Misfit(f"line {fault.lineno}, column {fault.colno}", f"this is no JSON: {fault.msg}") from None
    except (ValueError, RecursionError):
        raise Misfit("", "a number is too long, or objects and lists are nested too deep") from None


def one_line(value):
    return json.dumps(value, ensure_ascii=False)


def shown(value, indent="", before=""):
    """A JSON value as a text: on one line where it is short, else each part on its own."""
    line = before + one_line(value)
    if len(indent + line) <= WIDTH or not value or not isinstance(value, (dict, list)):
        return indent + line
    if isinstance(value, dict):
        opening, closing, parts = "{", "}", [(one_line(name) + ": ", x) for name, x in value.items()]
    else:
        opening, closing, parts = "[", "]", [("", x) for x in value]
    inner = ",\n".join(shown(x, indent + "  ", name) for name, x in parts)
    return f"{indent}{before}{opening}\n{inner}\n{indent}{closing}"
