#!/usr/bin/env python3
"""The most stack that each exported function can take: tools/stack_bound.py target/staticlib/libembed.a

Reads the frames and the calls of every function from the archive (objdump has to be there), and adds the frames up along the
deepest chain of calls. A function that calls itself counts as often as the limits let it: LEVELS says how often.
"""
import functools
import re
import subprocess
import sys

LEVELS = {
    "values::check::check_value": 41,  # values hold one another at most 40 deep; the one over is refused
    "values::alike::alike_value": 41,
    "values::dig::dig_from": 65,  # a path has at most 64 keys
    "nesting::graph::Graph::whole_type": 17,  # types hold one another at most 16 deep
}
# What a function that calls no other may use below its frame; memcpy and memset of the C library are taken for such functions.
RED_ZONE = 128


def functions(archive):
    """For each function the bytes of its frame and the functions that it calls."""
    command = ["objdump", "-dr", "--no-show-raw-insn", "-Mintel", archive]
    frames, calls, name, probing = {}, {}, None, False
    for line in subprocess.run(command, check=True, capture_output=True, text=True).stdout.splitlines():
        if start := re.match(r"[0-9a-f]+ <(.+)>:$", line):
            name, probing = start[1], False
            frames[name], calls[name] = 0, set()
        elif name is None:
            continue
        elif far := re.search(r"\tsub\s+r11,(0x[0-9a-f]+)", line):
            # A large frame is taken page by page, down to where r11 leads.
            frames[name] += int(far[1], 16)
            probing = True
        elif near := re.search(r"\tsub\s+rsp,(0x[0-9a-f]+)", line):
            frames[name] += 0 if probing and near[1] == "0x1000" else int(near[1], 16)
            probing = False
        elif re.search(r"\tpush\s", line):
            frames[name] += 8
        elif own := re.search(r"\tcall\s+[0-9a-f]+ <([^+>]+)>", line):
            calls[name].add(own[1])
        elif other := re.search(r"R_X86_64_PLT32\s+(?:\.text\.)?(.+?)(-0x4|\+0x.*)?$", line):
            calls[name].add(other[1])
    return frames, calls


def main(archive):
    frames, calls = functions(archive)
    own = {name for name in frames if name in calls[name]}
    if own != set(LEVELS):
        sys.exit(f"calls itself, but LEVELS does not say how often, or the other way round: {own ^ set(LEVELS)}")

    @functools.cache
    def most(name):
        if name not in frames:
            return 8 + RED_ZONE
        below = [most(other) for other in calls[name] if other != name]
        return LEVELS.get(name, 1) * (frames[name] + 8) + max(below, default=RED_ZONE)

    for name in sorted(frames):
        if name.startswith("ruvangixo_"):
            print(f"{name:24} {most(name):7} bytes of stack at most")


main(*sys.argv[1:])
