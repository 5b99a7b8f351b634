#!/usr/bin/env python3
"""Writes the examples: a motor with a trend, and a plant of some hundred tags.

usage: tools/make_plant.py [FOLDER]

For each example it writes NAME.catalog and NAME.list, the two files that a plan is made from, and NAME.txt, the same to be
read by people. FOLDER is examples/ beside this one where none is said. The same files come out at every run.
"""
import os
import re
import sys

BYTES = {"BOOL": 1, "SINT": 1, "INT": 2, "DINT": 4, "REAL": 4, "DWORD": 4, "LINT": 8, "LREAL": 8}
STRING = 88
MAXIMUM, BUDGET = 500, 4000
ATOMIC, STRUCT, TEXT = 0, 1, 2
AOI = ["", ", an add-on instruction that reads whole", ", an add-on instruction that does not read whole"]

# A type: its name, its add-on byte, its members, and how many bytes it has beside them. An array of bits is counted in words
# of 32. Types come before those that they are inside of.
MOTOR_TYPES = [("Motor", 0, "Speed DINT, Amps REAL", 4)]
PLANT_TYPES = [
    ("Timer", 0, "PRE DINT, ACC DINT, EN BOOL, TT BOOL, DN BOOL", 0),
    ("Alarm", 0, "Active BOOL, Acked BOOL, Count DINT, Limit REAL", 0),
    ("Analog", 0, "Raw INT, Value REAL, Low REAL, High REAL, HiAlarm Alarm, LoAlarm Alarm", 0),
    ("Drive", 0, "Run BOOL, Speed REAL, Setpoint REAL, Amps REAL, Hours DINT, Faults DWORD, Starting Timer", 0),
    ("Valve", 0, "Open BOOL, Closed BOOL, Cycles DINT, Travel Timer", 0),
    ("Zone", 0, "Occupied BOOL, Weight REAL, Parcel DINT", 0),
    ("Pump", 0, "Name STRING, Motor Drive, Flow Analog, Pressure Analog, Starts LINT, Modes DWORD[2]", 0),
    ("Tank", 0, "Name STRING, Level Analog, Heat Analog, Inlet Valve, Outlet Valve[2], Recipe DINT[8], Volume LREAL", 0),
    ("Conveyor", 0, "Drive Drive, Sensors DWORD[1], Loads REAL[10], Zones Zone[4]", 0),
    ("Scaler", 1, "In REAL, Out REAL, Factor REAL, Offset REAL", 8),
    ("Loop", 2, "In REAL, Out REAL, Setpoint REAL, Gain REAL", 8),
    ("Dosing", 0, "Rate REAL, Total LREAL, Control Loop, Feed Valve", 0),
    ("Station", 0, "State INT, Count DINT, Rejects DINT, Label STRING, Cycle Timer", 0),
]


def numbered(name, count, kind):
    return [f"{name}_{n:02} {kind}" for n in range(1, count + 1)]


MOTOR_TAGS = ["Motor Motor #5", "Trend DINT[200000] #300"]
PLANT_TAGS = [
    *numbered("Pump", 40, "Pump"), *numbered("Tank", 24, "Tank"), *numbered("Valve", 99, "Valve"),
    *numbered("Loop", 16, "Loop"), *numbered("Dose", 8, "Dosing"), *numbered("Scale", 6, "Scaler"),
    *numbered("Temperature", 60, "Analog"), "Conveyors Conveyor[24]", "Trend DINT[5000]", "Weights REAL[200]",
    "Grid REAL[12,8]", "Cube INT[4,4,4]", "Racks Zone[6,10]", "Alarm_Bits DWORD[16]", "Flags BOOL[64]",
    "Codes SINT[256]", "Recipe_Names STRING[20]", "Operator STRING", "Line_Speed REAL", "Shift INT", "Batch LINT",
    "Mode DINT", "Clock LWORD", "Camera Vision_System", "Remote_Status DINT #none",
    "Program:Filling.State DINT #65601", "Program:Filling.Stations Station[6] #65602",
    "Program:Filling.Heads Valve[12] #65603", "Program:Filling.Temps REAL[32] #65604",
    "Program:Packing.State DINT #65701", "Program:Packing.Stations Station[4] #65702",
    "Program:Packing.Boxes DINT[100] #65703", "Program:Packing.Label STRING #65704",
]
# Types of structs that the catalog does not list, with their bytes.
UNLISTED = {"Vision_System": 120}


def motor_list():
    return [], [], ["Motor.Speed", "Motor.Amps", "Trend[3]", "Trend[5]", "Odd.5"]


def plant_list():
    """The cells of four sheets, with the odd spellings that people leave in them."""
    tags = []
    for n in range(1, 13):
        tags += [f"Pump_{n:02}.{m}" for m in ("Motor.Run", "Motor.Speed", "Motor.Amps", "Flow.Value", "Pressure.Value")]
    for n in range(1, 9):
        tags += [f"Tank_{n:02}.{m}" for m in ("Name", "Level.Value", "Level.HiAlarm.Active", "Heat.Value")]
        tags += [f"Tank_{n:02}.{m}" for m in ("Outlet[0].Open", "Outlet[1].Open", "Recipe[0]", "Recipe[3]")]
    for n in range(8):
        tags += [f"Conveyors[{n}].{m}" for m in ("Drive.Speed", "Loads[0]", "Loads[1]", "Zones[1].Weight", "Sensors[5]")]
    tags += [f"Trend[{n}]" for n in (10, 11, 12, 15, 40, 41, 900, 901, 2500, 4999)] + ["Trend[011]", "Trend[20]{5}"]
    tags += [f"Weights[{n}]" for n in range(6)] + ["Weights", "Grid[3,4]", "Grid[3,5]", "Cube[1,2,3]"]
    tags += ["Racks[2,7].Weight", "Racks[2,7].Parcel", "Alarm_Bits[3]", "Alarm_Bits[35]", "Flags[7]", "Flags[8]"]
    tags += ["Codes[0]", "Codes[9]", "Recipe_Names[2]", "Operator", "Line_Speed", "Shift", "Batch", "Mode.5", "Clock"]
    tags += ["Dose_01.Rate", "Dose_01.Total", "Dose_01.Control.Out", "Dose_01.Feed.Open", "Dose_01.Feed.Closed"]
    tags += ["Loop_01.In", "Loop_01.Out", "Scale_01.In", "Scale_01.Out", "Camera.Good", "Camera.Bad", "Remote_Status"]
    tags += ["Valve_03", "Valve_03.Open", "Valve_03.Travel.ACC", "Spare_Tag", "PUMP_01.flow.VALUE", "Pump_01.Motor.Run"]
    for n in range(3):
        tags += [f"Program:Filling.Stations[{n}].{m}" for m in ("State", "Count", "Rejects", "Cycle.ACC")]
    tags += ["Program:Filling.State", "Program:Filling.Temps[0]", "Program:Filling.Temps[1]", "Program:Filling.Temps[31]"]
    tags += ["Program:Packing.State", "Program:Packing.Boxes[7]", "Program:Packing.Boxes[8]", "program:packing.label"]
    no_group = ["pump_03", "pump_03.motor", "tank_02.level", "weights", "conveyors[4].loads[0]{2}"]
    together = ["Pump_05", "TANK_04", "Conveyors[2].Drive"]
    return no_group, together, tags


class Catalog:
    """Tags and types with their sizes; each member of a struct takes whole words."""

    def __init__(self, types, tags):
        self.sizes = dict(UNLISTED)
        self.types = []
        for name, aoi, members, more in types:
            nodes = [self.node(*member.split(" ")) for member in members.split(", ")]
            self.sizes[name] = more + sum(-(-self.bytes(node) // 4) * 4 for node in nodes)
            self.types.append((name, self.sizes[name], aoi, nodes))
        self.tags = [self.node(*(tag.split(" ") + [f"#{20 + 3 * n}"])[:3]) for n, tag in enumerate(tags)]

    def node(self, name, kind, instance="#none"):
        """Name, type, kind byte, dimensions, instance id, size."""
        kind, dims = re.fullmatch(r"(\w+)(?:\[([\d,]+)\])?", kind).groups()
        dims = [int(n) for n in dims.split(",")] if dims else []
        instance = None if instance == "#none" else int(instance[1:])
        if kind in BYTES or kind == "LWORD":
            return name, kind, ATOMIC, dims, instance, None
        if kind == "STRING":
            return name, kind, TEXT, dims, instance, STRING
        return name, kind, STRUCT, dims, instance, self.sizes[kind]

    def bytes(self, node):
        count = 1
        for n in node[3]:
            count *= n
        return count * (BYTES[node[1]] if node[2] == ATOMIC else node[5])

    def file(self):
        out = b"\1" + number(2, len(self.tags)) + number(2, len(self.types)) + b"".join(map(node_bytes, self.tags))
        for name, size, aoi, nodes in self.types:
            out += text(name) + number(2, size) + number(1, aoi) + number(2, len(nodes)) + b"".join(map(node_bytes, nodes))
        return out

    def lines(self):
        yield f"{len(self.file())} bytes, types: {len(self.types)}, tags: {len(self.tags)}"
        for name, size, aoi, nodes in self.types:
            yield f"\ntype {name}, {size} bytes{AOI[aoi]}"
            yield from (f"    {node_line(node)}" for node in nodes)
        yield "\ntags"
        yield from (f"    {node_line(node)}" for node in self.tags)


def number(width, n):
    return n.to_bytes(width, "big")


def text(words):
    return number(1, len(words)) + words.encode("ascii")


def optional(width, n):
    return b"\0" if n is None else b"\1" + number(width, n)


def node_bytes(node):
    name, kind, byte, dims, instance, size = node
    out = text(name) + text(kind) + number(1, byte) + number(1, len(dims))
    return out + b"".join(number(4, n) for n in dims) + optional(4, instance) + optional(2, size)


def node_line(node):
    name, kind, byte, dims, instance, size = node
    shape = f"{name}: {kind}" + (f"[{','.join(map(str, dims))}]" if dims else "")
    word = ["", f", struct of {size} bytes", f", string of {size} bytes"][byte]
    return shape + word + ("" if instance is None else f", id {instance}")


def list_file(maximum, budget, groups):
    out = b"\1" + number(4, maximum) + number(2, budget)
    return out + b"".join(number(2, len(names)) + b"".join(map(text, names)) for names in groups)


def list_lines(size, maximum, budget, groups):
    yield f"{size} bytes, whole maximum {maximum}, budget {budget}"
    for what, names in zip(("no-group names", "together names", "tags asked for"), groups):
        yield f"\n{what}: {len(names)}"
        yield from (f"    {name}" for name in names)


def write(folder, name, catalog, groups):
    file, asked = catalog.file(), list_file(MAXIMUM, BUDGET, groups)
    assert len(file) <= 65536 and len(asked) <= 16384, "a file is over its limit"
    assert len(groups[2]) <= 256, "too many tags are asked for"
    lines = [f"{name}.catalog", *catalog.lines(), f"\n{name}.list", *list_lines(len(asked), MAXIMUM, BUDGET, groups)]
    for ending, data in (("catalog", file), ("list", asked), ("txt", "\n".join(lines + [""]).encode("ascii"))):
        with open(os.path.join(folder, f"{name}.{ending}"), "wb") as out:
            out.write(data)


def main():
    folder = sys.argv[1] if len(sys.argv) > 1 else os.path.join(os.path.dirname(__file__), "..", "examples")
    write(folder, "motor", Catalog(MOTOR_TYPES, MOTOR_TAGS), motor_list())
    write(folder, "plant", Catalog(PLANT_TYPES, PLANT_TAGS), plant_list())


main()
