"""Fields put together: rows of one form, records of named fields, and a status byte with what belongs to it."""
from .fields import Choice, Number
from .faults import Misfit, Refused, item, quoted, under


def members_of(value, where):
    """The fields of a JSON object; none may stand there twice."""
    if not isinstance(value, dict):
        raise Misfit(where, f"{quoted(value)} is no object")
    twice = getattr(value, "twice", None)
    if twice is not None:
        raise Misfit(where, f"{quoted(twice)} stands there twice")
    return value


class Row:
    """A count and so many fields of one form: a JSON list."""

    def __init__(self, width, most, form):
        self.count, self.most, self.form = Number(width, most), most, form

    def read_count(self, reader, where):
        return self.count.read(reader, f"the count of {where or 'the file'}")

    def read_items(self, reader, count, where):
        return [self.form.read(reader, item(where, i)) for i in range(count)]

    def read(self, reader, where):
        return self.read_items(reader, self.read_count(reader, where), where)

    def lay_count(self, value, where):
        if not isinstance(value, list):
            raise Misfit(where, f"{quoted(value)} is no list")
        if len(value) > self.most:
            raise Misfit(where, f"{len(value)} entries are over {self.most:,}")
        return self.count.lay(len(value), where)

    def lay_items(self, value, where):
        return b"".join(self.form.lay(x, item(where, i)) for i, x in enumerate(value))

    def lay(self, value, where):
        return self.lay_count(value, where) + self.lay_items(value, where)


class Field:
    """A field of a record. One with a default may be left out; it is left out of what is read unless it is `shown`."""

    def __init__(self, form, *default, shown=False):
        self.form, self.default, self.shown = form, default, shown or not default

    def is_shown(self, value):
        return self.shown or value != self.default[0]


class Record:
    """Fields one behind the other: a JSON object, its names in any order."""

    def __init__(self, **fields):
        self.fields = fields

    def parts(self, value, where):
        """What is given for each field, or its default."""
        given = members_of(value, where)
        for name in given:
            if name not in self.fields:
                raise Misfit(under(where, name), f"there is no such field; the fields are {', '.join(self.fields)}")
        for name, field in self.fields.items():
            if name not in given and not field.default:
                raise Misfit(under(where, name), "the field is missing")
        return {name: given[name] if name in given else field.default[0] for name, field in self.fields.items()}

    def shown(self, parts):
        return {name: value for name, value in parts.items() if self.fields[name].is_shown(value)}

    def read(self, reader, where):
        return self.shown({name: field.form.read(reader, under(where, name)) for name, field in self.fields.items()})

    def lay(self, value, where):
        parts = self.parts(value, where)
        return b"".join(field.form.lay(parts[name], under(where, name)) for name, field in self.fields.items())


class CountsFirst(Record):
    """Rows of which all counts stand before the first entry."""

    def read(self, reader, where):
        counts = {name: row.form.read_count(reader, under(where, name)) for name, row in self.fields.items()}
        return self.shown({name: row.form.read_items(reader, counts[name], under(where, name))
                           for name, row in self.fields.items()})

    def lay(self, value, where):
        rows = [(row.form, given, under(where, name))
                for (name, row), given in zip(self.fields.items(), self.parts(value, where).values())]
        counts = b"".join(row.lay_count(given, place) for row, given, place in rows)
        return counts + b"".join(row.lay_items(given, place) for row, given, place in rows)


class Status:
    """A byte that stands for a word, and what belongs to it: the word, or an object with it as its only name."""

    def __init__(self, **forms):
        self.forms, self.byte = forms, Choice(*forms)

    def read(self, reader, where):
        word = self.byte.read(reader, where)
        form = self.forms[word]
        return {word: form.read(reader, under(where, word))} if form else word

    def lay(self, value, where):
        if isinstance(value, str) and value in self.forms and not self.forms[value]:
            return self.byte.lay(value, where)
        if isinstance(value, dict) and len(members_of(value, where)) == 1:
            (word, rest), = value.items()
            if self.forms.get(word):
                return self.byte.lay(word, where) + self.forms[word].lay(rest, under(where, word))
        words = [f'{{"{word}": ..}}' if form else f'"{word}"' for word, form in self.forms.items()]
        raise Misfit(where, f"{quoted(value)} is none of {', '.join(words)}")


class File:
    """A whole file: its longest, its version byte 1, and one form."""

    def __init__(self, form, longest=None, version=b"\1", written=True):
        self.form, self.longest, self.version, self.written = form, longest, version, written

    def read(self, reader):
        size = reader.left()
        if self.longest and size > self.longest:
            raise Refused(1, self.longest, f"the file has {size:,} bytes, over {self.longest:,}")
        if not reader.data.startswith(self.version):
            raise Refused(2, 0, "the file does not start with the version byte 1")
        reader.at = len(self.version)
        value = self.form.read(reader, "")
        reader.finish("the last field")
        if reader.again:
            raise Refused(6, *reader.again)
        return value

    def lay(self, value):
        data = self.version + self.form.lay(value, "")
        if self.longest and len(data) > self.longest:
            raise Misfit("", f"the file would have {len(data):,} bytes, over {self.longest:,}")
        return data
