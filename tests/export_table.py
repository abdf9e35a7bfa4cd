#!/usr/bin/env python3
"""Compares the nodes that tools/export_tree.py knows with the table of kinds, and writes trees of made-up nodes.

    python3 tests/export_table.py

It needs no Blender: the nodes are plain objects with the names that Blender's Python has.
"""

import ctypes
import json
import os
import re
import sys
from fractions import Fraction
from types import SimpleNamespace

TOP = os.path.dirname(os.path.dirname(os.path.abspath(__file__)))
sys.path[:0] = [os.path.join(TOP, "tools"), os.path.join(TOP, "tests")]

from blender_kinds import DIFFERENCES, ELSEWHERE, KINDS  # noqa: E402
from export_tree import Export, Names, lines_of, text_of  # noqa: E402
from tree_rules import verdict  # noqa: E402

# Inputs of kinds that a node of Blender has under no one name, or has not.
ELSEWISE = {("transform_geometry", "row_" + axis) for axis in "xyz"} | {("store_named_attribute", "selection")}


def read(name):
    with open(os.path.join(TOP, "docs", name), encoding="utf-8") as file:
        return file.read()


def rows():
    """For each kind the names of its inputs and of its outputs, from the page on trees."""
    for line in read("TREES.md").splitlines():
        cells = [cell.strip() for cell in line.strip("|").split("|")]
        if line.startswith("| `") and len(cells) == 5:
            name = cells[0].strip("`")
            yield name, [re.findall(r"(?:^|; )`(\w+)`", cell) for cell in cells[3:]]


def forms():
    """For each kind the form of its settings, from the schema."""
    nodes = json.loads(read("tree.schema.json"))["$defs"]["node"]["oneOf"]
    return {node["properties"]["kind"]["const"]: node["properties"].get("set", {}) for node in nodes}


def faults_of(kind, sockets, form):
    """What a node of Blender has otherwise than its kind."""
    inputs, outputs = sockets
    for name in set(kind.inputs) - set(inputs):
        yield "no input " + name
    for name in set(inputs) - set(kind.inputs):
        if (kind.name, name) not in ELSEWISE:
            yield "the input %s has no socket" % name
    for name in set(kind.outputs) - set(outputs):
        yield "no output " + name
    chosen = {"type": kind.type, "op": kind.op, "place": kind.place}
    settings = {name: set(choice[1].values()) for name, choice in chosen.items() if choice}
    for name, text in (("clamp", kind.clamp), ("name", kind.column), ("value", kind.value)):
        if text is not None:
            settings[name] = set()
    if set(settings) != set(form.get("properties", {})):
        yield "the settings %s for %s" % (sorted(settings), sorted(form.get("properties", {})))
    for name, values in settings.items():
        left = values - set(form.get("properties", {}).get(name, {}).get("enum", values))
        if left:
            yield "%s can't be %s" % (name, sorted(left))
    for note in kind.notes:
        if note not in DIFFERENCES:
            yield "no difference " + note


def table_faults():
    table, settings, page = dict(rows()), forms(), read("BLENDER.md")
    names = [kind.name for kind in KINDS.values()]
    for kind in KINDS.values():
        if kind.name not in table:
            yield kind.name + ": no such kind"
            continue
        for fault in faults_of(kind, table[kind.name], settings[kind.name]):
            yield "%s: %s" % (kind.name, fault)
    for name in table:
        if names.count(name) != (name not in ELSEWHERE):
            yield "%s: %d nodes" % (name, names.count(name))
    for name, words in DIFFERENCES.items():
        if "| " + words[0].upper() + words[1:] not in page:
            yield "docs/BLENDER.md has no row for " + name


def number_faults():
    """Texts have to read back to the nearest multiple of 2^-32."""
    numbers = [0.0, 1.0, -1.0, 0.1, -0.1, 1e-10, 3.4028235e8, 0.10000000149011612, -2147483648.0, 2147483647.5]
    for number in numbers:
        text = text_of(number)
        if round(Fraction(text) * 2**32) != round(Fraction(number) * 2**32):
            yield "%r is written as %s" % (number, text)
    for number in (2147483648.0, -2147483649.0, 1e30):
        try:
            yield "%r is written as %s" % (number, text_of(number))
        except ValueError:
            pass
    ids = Names()
    made = [ids.make(name) for name in ("Math", "math", "MATH.001", "input", "\u00e9", "", "x" * 40, "x" * 40)]
    wanted = ["math", "math_2", "math_001", "input_2", "node", "node_2", "x" * 32, "x" * 30 + "_2"]
    if made != wanted:
        yield "ids are %s" % made


# Made-up nodes.


def socket(name, kind="VALUE", value=0.0, identifier=None, hidden=False, several=False):
    return SimpleNamespace(
        name=name,
        identifier=identifier or name,
        type=kind,
        default_value=value,
        enabled=True,
        hide_value=hidden,
        is_multi_input=several,
        links=[],
    )


def node(name, of, inputs=(), outputs=(), mute=False, **properties):
    return SimpleNamespace(
        name=name, bl_idname=of, bl_label=of, inputs=list(inputs), outputs=list(outputs), mute=mute, internal_links=[], **properties
    )


def tree(name, inputs, outputs, nodes):
    return SimpleNamespace(name=name, inputs=inputs, outputs=outputs, nodes=nodes)


def link(origin, at, target, into, place=0, muted=False):
    """A link, with its place among several where Blender keeps it."""
    memory = (ctypes.c_byte * 56)()
    ctypes.c_int.from_address(ctypes.addressof(memory) + 52).value = place
    target.inputs[into].links.append(
        SimpleNamespace(
            from_node=origin,
            from_socket=origin.outputs[at],
            is_valid=True,
            is_muted=muted,
            memory=memory,
            as_pointer=lambda: ctypes.addressof(memory),
        )
    )


def entry(sockets):
    return node("Group Input", "NodeGroupInput", [], sockets)


def end(sockets):
    return node("Group Output", "NodeGroupOutput", sockets, [], is_active_output=True)


def geometry():
    return socket("Geometry", "GEOMETRY", None)


def moving(name, mute=False):
    inputs = [
        geometry(),
        socket("Selection", "BOOLEAN", True, hidden=True),
        socket("Position", "VECTOR", (0, 0, 0), hidden=True),
        socket("Offset", "VECTOR", (0.0, 0.0, 1.0)),
    ]
    return node(name, "GeometryNodeSetPosition", inputs, [geometry()], mute)


def lifting():
    """A group that moves by its input, behind a reroute, a muted node and a node that nothing reads."""
    offset = socket("Offset", "VECTOR", (0.5, 0.0, 0.0), "Input_1")
    first, last = entry([geometry(), offset]), end([geometry()])
    way = node("Reroute", "NodeReroute", [geometry()], [geometry()])
    off, move, unread = moving("Off", mute=True), moving("Set Position"), moving("Unread")
    off.internal_links = [SimpleNamespace(from_socket=off.inputs[0], to_socket=off.outputs[0])]
    link(first, 0, way, 0)
    link(way, 0, off, 0)
    link(off, 0, move, 0)
    link(first, 1, move, 3)
    link(move, 0, last, 0)
    return tree("Lift", [geometry(), offset], [geometry()], [first, last, way, off, move, unread])


def twice():
    """A group that uses another one twice and joins, the later link above the earlier."""
    inner, first, last = lifting(), entry([geometry()]), end([geometry()])
    uses = []
    for name in ("Low", "High"):
        inputs = [geometry(), socket("Offset", "VECTOR", (0.0, 0.0, 2.0), "Input_1")]
        uses.append(node(name, "GeometryNodeGroup", inputs, [geometry()], node_tree=inner))
    join = node("Join", "GeometryNodeJoinGeometry", [socket("Geometry", "GEOMETRY", None, several=True)], [geometry()])
    for place, use in enumerate(uses):
        link(first, 0, use, 0)
        link(use, 0, join, 0, place)
    link(join, 0, last, 0)
    return tree("Twice", [geometry()], [geometry()], [first, last, *uses, join])


IN = {"from": "input", "socket": "geometry"}
MOVED = {"id": "set_position", "kind": "set_position", "in": {"geometry": IN, "offset": ["0.5", "0", "0"]}}
LIFT = {
    "name": "lift",
    "inputs": [{"name": "geometry", "kind": "geometry"}, {"name": "offset", "kind": "vector"}],
    "outputs": [{"name": "geometry", "kind": "geometry"}],
    "nodes": [{**MOVED, "in": {"geometry": IN, "offset": {"from": "input", "socket": "offset"}}}],
    "output": {"geometry": {"from": "set_position", "socket": "geometry"}},
}


def use_of(name):
    return {"id": name, "kind": "group", "set": {"group": "lift"}, "in": {"geometry": IN, "offset": ["0", "0", "2"]}}


def joined():
    return [{"from": "high", "socket": "geometry"}, {"from": "low", "socket": "geometry"}]


TREES = [
    (lifting, {"format": 1, "nodes": [MOVED], "output": {"from": "set_position", "socket": "geometry"}}),
    (
        twice,
        {
            "format": 1,
            "groups": [LIFT],
            "nodes": [use_of("high"), use_of("low"), {"id": "join", "kind": "join_geometry", "in": {"geometry": joined()}}],
            "output": {"from": "join", "socket": "geometry"},
        },
    ),
]


def sampling(domain):
    """A group that samples a cloud beside a mesh."""
    first, last = entry([geometry()]), end([geometry()])
    points = node("Points", "GeometryNodePoints", [], [geometry()])
    join = node("Join", "GeometryNodeJoinGeometry", [socket("Geometry", "GEOMETRY", None, several=True)], [geometry()])
    value = socket("Selection", "BOOLEAN", True, hidden=True)
    delete = node("Delete", "GeometryNodeDeleteGeometry", [geometry(), value], [geometry()], domain=domain, mode="ALL")
    link(points, 0, join, 0)
    link(first, 0, join, 0, 1)
    link(join, 0, delete, 0)
    link(delete, 0, last, 0)
    return tree("Both", [geometry()], [geometry()], [first, last, points, join, delete])


REFUSED = [
    ("POINT", "Both: Delete uses vertices and points of a cloud at once; instead: Separate Components in front of it"),
    ("EDGE", "Both: Delete uses the mode All; instead: the mode Only Edges & Faces"),
    ("CURVE", "Both: Delete uses Curve; instead: edge, face, instance, point"),
]


def tree_faults():
    for make, want in TREES:
        export = Export(make())
        made = export.tree()
        if made != want or export.refusals:
            yield "%s: %s %s" % (make.__name__, json.dumps(made), export.refusals)
        if verdict(lines_of(made).encode()) != ("ok",) or json.loads(lines_of(made)) != made:
            yield "%s: the text is not that of a well-formed tree" % make.__name__
    for domain, want in REFUSED:
        export = Export(sampling(domain))
        export.tree()
        if export.refusals != [want]:
            yield "%s: %s" % (domain, export.refusals)


def main():
    faults = [*table_faults(), *number_faults(), *tree_faults()]
    for fault in faults:
        print(fault)
    print("%d nodes of Blender compared with the table of kinds" % len(KINDS))
    sys.exit(1 if faults else 0)


if __name__ == "__main__":
    main()
