#!/usr/bin/env python3
"""Prints, file by file, the laws in crates/*/proofs that nothing reaches, and how many they are.

A law is reached if an answer, an invariant, a file of specs/, an example, a ruleset that the sources use or a page names it, if a
comment above it calls it a theorem, or if a law that is reached names it. The last line has their number and the number of their lines.
"""

import collections
import glob
import os
import re
import signal

WORD = re.compile(r"[^\s(){}\[\].,;:λ=→≡∙×]+")
HEAD = re.compile(r"^(\s*)(?:pub )?(?:data |record |ruleset |abbrev )?([^\s(){}:=]+) (?::|=|\()")
USE = re.compile(r"use ([\w.]+)\.\{([^}]*)\}")
THEOREM = re.compile(r"-- THEOREM.*\n(?: *--.*\n)* *(?:pub )?(\S+) :")
RULES = re.compile(r"((?:\w+::)+proofs::(?:\w+::)*)([\w'-]+)")
ROOTS = {"Answers.antt", "Invariants.antt", "Bench.antt", "Stored.antt"}


def read(path):
    with open(path, encoding="utf-8") as f:
        return f.read()


def declarations(text):
    """The text of each declaration by its name; under "" what stands outside of all, the parameters of modules among it."""
    found, name, depth = collections.defaultdict(list), "", 0
    for line in filter(str.strip, text.split("\n")):
        indent, start = len(line) - len(line.lstrip()), line.strip()
        m = HEAD.match(line)
        if not name or indent <= depth:
            if start.startswith("module "):
                name = ""
            elif m and not start.startswith(("use ", "unfolding", "infix")):
                name, depth = m.group(2), indent
        found[name].append(line)
    return {name: "\n".join(lines) for name, lines in found.items()}


def is_law(name, text):
    return re.match(r"[A-Za-z]", name) and re.search(rf"(?m)^\s*(?:pub )?{re.escape(name)} :", text) and re.search(rf"(?m)^\s*{re.escape(name)}\b[^\n:]*=", text)


def unreached():
    """The laws that nothing reaches and their lines, by file."""
    paths = [p for p in glob.glob("crates/*/[ps]*s/**/*.antt", recursive=True)]
    sources = {p: read(p) for p in paths}
    texts = {p: re.sub(r"(?m)--.*$", "", text) for p, text in sources.items()}
    files = {"Rattle." + p[7:-5].replace("/", "."): p for p in paths}
    declared = {p: declarations(USE.sub("", text)) for p, text in texts.items()}
    taken = {p: {x.split(" as ")[-1].strip(): (files[m.group(1)], x.split(" as ")[0].strip())
                 for m in USE.finditer(text) if m.group(1) in files for x in m.group(2).split(",")} for p, text in texts.items()}
    pages = "".join(read(p) for p in ["README.md"] + glob.glob("docs/*.md") if not p.endswith("DESIGN-PASS.md"))
    named, live = set(re.findall(r"`([^`\s]+)`", pages)), set()
    left = [(p, x) for p in paths for x in declared[p] if x in named or x == "" or "/specs/" in p
            or os.path.basename(p) in ROOTS or "Examples" in p or "computing :" in texts[p]]
    left += [(p, x) for p, text in sources.items() for x in THEOREM.findall(text)]
    for path in glob.glob("crates/*/src/**/*.rt", recursive=True):
        for m in RULES.finditer(read(path)):
            first, *more = m.group(1)[:-2].split("::")
            crate = path.split("/")[1] if first == "crate" else first
            left.append((f"crates/{crate}/{'/'.join(more)}.antt", m.group(2)))
    while left:
        path, name = left.pop()
        if (path, name) in live or name not in declared.get(path, ()):
            continue
        live.add((path, name))
        for word in set(WORD.findall(declared[path][name])):
            left.append((path, word))
            left.extend([taken[path][word]] if word in taken[path] else [])
    dead = {p: {x: t.count("\n") + 1 for x, t in declared[p].items() if (p, x) not in live and is_law(x, t)}
            for p in sorted(paths) if "/proofs/" in p}
    return {p: laws for p, laws in dead.items() if laws}


def main():
    signal.signal(signal.SIGPIPE, signal.SIG_DFL)
    dead = unreached()
    for path, laws in dead.items():
        print(f"{path[7:]}: {', '.join(laws)}")
    print(f"{sum(map(len, dead.values()))} laws, {sum(sum(laws.values()) for laws in dead.values())} lines")


if __name__ == "__main__":
    main()
