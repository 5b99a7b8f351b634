#!/usr/bin/env python3
"""Turns a JSON text into a file of the planner, and a file into its JSON text.

    tools/files.py KIND TEXT FILE       writes FILE as the JSON in TEXT says
    tools/files.py --json KIND FILE     prints the JSON of FILE

KIND is catalog, list, plan, path, value or results; groups and sorted, which are answers, can only be printed. The JSON
forms are in tools/README.md, examples in examples/. A file that is printed and then written again has the same bytes.

Where the JSON does not fit, the fault is told with its place in it: tags[3].dims[0]: 2000000 is over 1,000,000. Where the
planner would refuse the file that is to be printed, the number of the cause and the byte are told. Not looked for are tags,
types or members of a catalog that are called alike (6), and types nested too deep (7): these the planner tells. With a
fault nothing is written, and the exit status is 1.
"""
import argparse
import os
import sys

from forms.faults import Misfit, Refused
from forms.json_text import parsed, shown
from forms.kinds import KINDS
from forms.reader import Reader


def decoded(kind, data):
    """The JSON value of a file's bytes."""
    return KINDS[kind].read(Reader(data))


def encoded(kind, value):
    """The bytes of the file that a JSON value says."""
    return KINDS[kind].lay(value)


def arguments():
    parser = argparse.ArgumentParser(description=__doc__, formatter_class=argparse.RawDescriptionHelpFormatter,
                                     usage="%(prog)s KIND TEXT FILE | %(prog)s --json KIND FILE")
    parser.add_argument("--json", action="store_true", help="print the JSON of a file")
    parser.add_argument("kind", choices=KINDS, metavar="KIND", help=", ".join(KINDS))
    parser.add_argument("source", metavar="TEXT", help="the JSON text, or the file behind --json")
    parser.add_argument("target", metavar="FILE", nargs="?", help="the file to be written")
    given = parser.parse_args()
    if given.json == (given.target is not None):
        parser.error("behind --json comes one file" if given.json else "the file to be written is missing")
    if not given.json and not KINDS[given.kind].written:
        parser.error(f"{given.kind} is an answer of the planner: it can be printed with --json, not written")
    return given


def convert(given):
    with open(given.source, "rb") as source:
        raw = source.read()
    if given.json:
        sys.stdout.buffer.write(shown(decoded(given.kind, raw)).encode("utf-8") + b"\n")
        sys.stdout.buffer.flush()
        return
    data = encoded(given.kind, parsed(raw))
    with open(given.target, "wb") as target:
        target.write(data)


def main():
    given = arguments()
    try:
        convert(given)
    except BrokenPipeError:
        os.dup2(os.open(os.devnull, os.O_WRONLY), sys.stdout.fileno())
    except (Misfit, Refused) as fault:
        sys.exit(f"{given.source}: {fault}")
    except OSError as fault:
        sys.exit(f"{fault.filename}: {fault.strerror}")


if __name__ == "__main__":
    main()
