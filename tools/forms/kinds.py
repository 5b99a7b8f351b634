"""The kinds of files: what stands in each, field by field, with the limits of its counts, texts and numbers."""
from .faults import quoted, Misfit
from .fields import Choice, Number, Option, Text
from .paths import Path
from .shapes import CountsFirst, Field, File, Record, Row, Status
from .values import Value

LONGEST, LONGEST_LIST = 65536, 16384

NODE = Record(
    name=Field(Text(128)),
    type=Field(Text(128)),
    kind=Field(Choice("atomic", "struct", "string"), "atomic"),
    dims=Field(Row(1, 3, Number(4, 1_000_000)), []),
    id=Field(Option(Number(4)), None),
    size=Field(Option(Number(2)), None),
)
TYPE = Record(
    name=Field(Text(128)),
    size=Field(Number(2)),
    aoi=Field(Choice("no", "whole", "parts"), "no"),
    members=Field(Row(2, 256, NODE)),
)
CATALOG = CountsFirst(
    tags=Field(Row(2, 1024, NODE), [], shown=True),
    types=Field(Row(2, 128, TYPE), [], shown=True),
)
LIST = Record(
    wholeMax=Field(Number(4)),
    budget=Field(Number(2)),
    noGroup=Field(Row(2, 256, Text(136)), [], shown=True),
    together=Field(Row(2, 64, Text(128)), [], shown=True),
    tags=Field(Row(2, 256, Text(128, digits=1_000_000))),
)


class Member:
    """A tag that a read serves: the tag alone, or with the path that leads to it."""

    record = Record(tag=Field(Text(128)), path=Field(Option(Path()), None))

    def read(self, reader, where):
        member = self.record.read(reader, where)
        return member if "path" in member else member["tag"]

    def lay(self, value, where):
        if not isinstance(value, (str, dict)):
            raise Misfit(where, f"{quoted(value)} is neither a tag nor an object with tag and path")
        return self.record.lay({"tag": value} if isinstance(value, str) else value, where)


READ = Record(name=Field(Text(136, digits=1_000_001)), members=Field(Row(2, 256, Member())))
PLAN = Record(reads=Field(Row(2, 256, READ)))
RESULTS = Row(2, 65535, Status(ok=Value(), error=None, none=None))
POSITIONS = Row(2, 65535, Number(2))
GROUPS = Record(packets=Field(Number(8)), groups=Field(Row(2, 65535, POSITIONS)))
SORTED = Record(members=Field(Row(2, 65535, Status(cut=Number(4), retry=None, received=None))), failed=Field(POSITIONS))

KINDS = {
    "catalog": File(CATALOG, LONGEST),
    "list": File(LIST, LONGEST_LIST),
    "plan": File(PLAN, LONGEST),
    "path": File(Path(), version=b""),
    "value": File(Value(), LONGEST),
    "results": File(RESULTS, LONGEST),
    "groups": File(GROUPS, written=False),
    "sorted": File(SORTED, written=False),
}
