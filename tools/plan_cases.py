#!/usr/bin/env python3
"""Writes stored plans as theorems: what the Rust answered is the plan by definition.

usage: tools/plan_cases.py CASES MODULE [[TITLE=]NUMBERS ..]

CASES is crates/replay/data/plan.cases, MODULE the antt file to write. NUMBERS are positions of cases, the first being 0,
as 0-14,20; without any, the cases that MODULE has already are written again, or all if there is no such file. TITLE becomes
a comment above its cases. The module is one of the planner's proofs/, or of a crate's that stands on the planner.
"""
import json
import os
import re
import sys

WIDTH = 130
MARK = "-- ---- "
WORDS = ["bytes", "named", "indexed", "first_of"]


class Reader:
    """Reads fields off a file's bytes, front to back."""

    def __init__(self, data, at=0):
        self.data, self.at = data, at

    def take(self, n):
        self.at += n
        if self.at > len(self.data):
            sys.exit("a field runs past the end of its file")
        return self.data[self.at - n:self.at]

    def number(self, width):
        return int.from_bytes(self.take(width), "big")

    def text(self):
        return text(self.take(self.number(1)))

    def several(self, width, item):
        return [item() for _ in range(self.number(width))]

    def option(self, item):
        return item() if self.number(1) else None

    def end(self):
        if self.at != len(self.data):
            sys.exit("bytes left over in a file")


class Call(list):
    """A function and its arguments, or a word alone. A list that is no call is shown as a list."""


def text(raw):
    if any(b in raw for b in b'"\\'):
        return [Call([str(b)]) for b in raw]
    return Call(["bytes", json.dumps(raw.decode("ascii"))])


def word(n):
    return Call([str(n)])


def option(x):
    return Call(["none"]) if x is None else Call(["some", x])


def node(r):
    name, kind_name, kind = r.text(), r.text(), ["Atomic", "Struct", "String"][r.number(1)]
    dims = r.several(1, lambda: word(r.number(4)))
    ident = r.option(lambda: word(r.number(4)))
    size = r.option(lambda: word(r.number(2)))
    return Call(["node", name, kind_name, Call([kind]), dims, option(ident), option(size)])


def type_def(r):
    name, size, aoi = r.text(), r.number(2), ["No", "Whole", "Parts"][r.number(1)]
    return Call(["type", name, word(size), Call([aoi]), r.several(2, lambda: node(r))])


def catalog(data):
    r = Reader(data, 1)
    tags, types = r.number(2), r.number(2)
    found = Call(["catalog", [node(r) for _ in range(tags)], [type_def(r) for _ in range(types)]])
    r.end()
    return found


def tag_list(data):
    r = Reader(data, 1)
    found = Call(["listing", word(r.number(4)), word(r.number(2))] + [r.several(2, r.text) for _ in range(3)])
    r.end()
    return found


def step(r):
    key = r.number(1)
    return Call(["named", r.text()]) if key == 0 else Call([["indexed", "first_of"][key - 1], word(r.number(4))])


def member(r):
    tag, path = r.text(), r.option(lambda: r.several(1, lambda: step(r)))
    return Call(["plain", tag]) if path is None else Call(["cut", tag, path])


def plan(data):
    r = Reader(data, 1)
    found = r.several(2, lambda: Call(["read", r.text(), r.several(2, lambda: member(r))]))
    r.end()
    return found


def row(parts, glue, filled):
    """Parts in one line if it is short enough; else each on a line of its own, or as many on a line as it holds."""
    line = glue.join(parts)
    if "\n" not in line and len(line) <= WIDTH:
        return line
    lines = [parts[0]]
    for part in parts[1:]:
        if filled and "\n" not in lines[-1] + part and len(lines[-1] + glue + part) <= WIDTH:
            lines[-1] += glue + part
        else:
            lines.append(glue.lstrip() + part)
    return "\n    ".join(lines)


def shown(x, argument=False):
    """The text of a value."""
    if isinstance(x, Call):
        found = row([x[0]] + [y if isinstance(y, str) else shown(y, True) for y in x[1:]], " ", True)
        return f"({found})" if argument and len(x) > 1 else found
    found = row([shown(y) for y in x] + ["[]"], " ∷ ", all(y[0] in WORDS for y in x))
    return f"({found})" if argument and x else found


def stored(path):
    r, fields = Reader(open(path, "rb").read()), []
    while r.at < len(r.data):
        fields.append(r.take(r.number(4)))
    if len(fields) % 3:
        sys.exit(f"{path}: not a row of catalogs, lists and plans")
    return [fields[i:i + 3] for i in range(0, len(fields), 3)]


HEAD = """-- Stored cases: the plan of a list by definition is the plan that the customer's Rust made of it.
-- Written by tools/plan_cases.py from crates/replay/data/plan.cases; a theorem has its case's position there as its number.
-- Assumes nothing.
use Prim.Native.Nat.{ℕ}
use mathlib.Core.Path.{◌≡◌, refl}
use mathlib.Core.List.{List, [], ◌∷◌}
use mathlib.Core.Option.{Option, none, some}
use Rattle.fields.specs.Text.{Text, bytes}
use Rattle.catalog.specs.Catalog.{Node, TypeDef, Catalog}
use Rattle.catalog.specs.declared.Kind.{Kind}
use Rattle.catalog.specs.declared.Kind.TheVariants.{Atomic, Struct, String}
use Rattle.catalog.specs.declared.Aoi.{Aoi}
use Rattle.catalog.specs.declared.Aoi.TheVariants.{No, Whole, Parts}
use Rattle.packing.specs.Packing.{standard}
use Rattle.lists.specs.Lists.{TagList}
use Rattle.plans.specs.Plans.{Step, named, indexed, first_of, Member, Read}
use Rattle.planner.specs.Plan.{plan_of}
use Rattle.planner.proofs.Computing.{computing}

-- a tag of a catalog, or a member of a type
abbrev node : Text → Text → Kind → List ℕ → Option ℕ → Option ℕ → Node
node a t k ds i z = record { name = a; type_name = t; kind = k; dims = ds; id = i; size = z }

-- a type of a catalog
abbrev type : Text → ℕ → Aoi → List Node → TypeDef
type a z o ms = record { name = a; size = z; aoi = o; members = ms }

-- a catalog
abbrev catalog : List Node → List TypeDef → Catalog
catalog ns ds = record { tags = ns; types = ds }

-- what is asked: whole maximum, budget, no-group names, together names, tags
abbrev listing : ℕ → ℕ → List Text → List Text → List Text → TagList
listing m b ns gs ts = record { whole_max = m; budget = b; no_group = ns; together = gs; tags = ts }

-- a tag that its read gives whole
abbrev plain : Text → Member
plain t = record { tag = t; path = none }

-- a tag that is cut from its read
abbrev cut : Text → List Step → Member
cut t ps = record { tag = t; path = some ps }

-- a read of a plan
abbrev read : Text → List Member → Read
read a ms = record { name = a; members = ms }
"""


def numbers(listed):
    for part in listed.split(","):
        first, _, last = part.partition("-")
        yield from range(int(first), int(last or first) + 1)


def kept(path, count):
    """The rows of cases that a module has already, or one row of all."""
    if not os.path.exists(path):
        return [f"0-{count - 1}"]
    rows, title = [], ""
    for line in open(path, encoding="utf-8"):
        if line.startswith(MARK):
            title = line[len(MARK):].strip() + "="
        elif found := re.match(r"case-(\d+) :", line):
            rows.append(title + found[1])
            title = ""
    return rows


def theorem(n, case, known):
    lines = []
    if case[0] not in known:
        known[case[0]] = f"catalog-{n}"
        lines += ["", f"abbrev catalog-{n} : Catalog", f"catalog-{n} =", "    " + shown(catalog(case[0]))]
    lines += ["", f"case-{n} : plan_of standard {known[case[0]]}", "    " + shown(tag_list(case[1]), True)]
    return lines + ["    ≡ " + shown(plan(case[2])), "unfolding computing", f"case-{n} = refl"]


def main(arguments):
    if len(arguments) < 2:
        sys.exit(__doc__.strip())
    cases = stored(arguments[0])
    lines, known = [HEAD.rstrip()], {}
    for part in arguments[2:] or kept(arguments[1], len(cases)):
        title, _, part = part.rpartition("=")
        lines += ["", MARK + title] if title else []
        for n in numbers(part):
            lines += theorem(n, cases[n], known)
    with open(arguments[1], "w", encoding="utf-8") as out:
        out.write("\n".join(lines) + "\n")


main(sys.argv[1:])
