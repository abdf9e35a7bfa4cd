"""Writes a geometry node group of Blender 3.4 as a tree of geonodes, and an object's mesh as OBJ.

    blender -b scene.blend --python tools/export_tree.py -- GROUP tree.json [--object NAME]

With --object the inputs of the group have the values of the object's modifier with that group, and in.obj beside the
tree has the object's mesh before its modifiers. docs/BLENDER.md says what is taken, and what means something else.
Where a node can't be written, nothing is: each such node has a line on standard error, and the exit status is 1.
"""

import ctypes
import json
import os
import re
import sys
from fractions import Fraction

sys.path.insert(0, os.path.dirname(os.path.abspath(__file__)))
from blender_kinds import DIFFERENCES, KINDS, REALIZE, TYPES, VALUES

RESERVED = {"input", "output", "iteration", "iterations"}
CONSTANTS = {"fixed": "float", "int": "integer", "truth": "boolean", "vector": "vector"}
MESH, CLOUD, INSTANCES = "mesh", "cloud", "instances"
MAKES = {
    "mesh_line": MESH,
    "grid": MESH,
    "cube": MESH,
    "bounding_box": MESH,
    "points_to_vertices": MESH,
    "points": CLOUD,
    "mesh_to_points": CLOUD,
    "instances_to_points": CLOUD,
    "duplicate_elements": CLOUD,
}
SPLITS = {"Mesh": MESH, "Point Cloud": CLOUD, "Instances": INSTANCES}


class Refused(Exception):
    """A node that can't be written: its name, what it uses, and what there is instead."""


def text_of(number):
    """The text that reads back to the nearest multiple of 2^-32."""
    raw = round(Fraction(number) * 2**32)
    if not -(2**63) <= raw < 2**63:
        raise ValueError("%g, which is out of range" % number)
    tenths = round(Fraction(raw, 2**32) * 10**10)
    whole, part = divmod(abs(tenths), 10**10)
    digits = ("%010d" % part).rstrip("0")
    return ("-" if tenths < 0 else "") + str(whole) + ("." + digits if digits else "")


def constant(kind, value):
    """A value of Blender as a constant of a tree."""
    if kind == "vector":
        return [text_of(part) for part in value]
    return {"fixed": text_of, "int": int, "truth": bool}[kind](value)


class Names:
    """Ids that are valid and that no two things have."""

    def __init__(self):
        self.used = set(RESERVED)

    def make(self, name):
        base = re.sub("_+", "_", re.sub("[^a-z0-9_]", "_", name.lower())).strip("_")[:32] or "node"
        found, count = base, 1
        while found in self.used:
            count += 1
            found = "%s_%d" % (base[: 31 - len(str(count))], count)
        self.used.add(found)
        return found


def socket_of(sockets, name):
    """The enabled socket with that identifier, or else under that name."""
    enabled = [socket for socket in sockets if socket.enabled]
    for socket in enabled:
        if socket.identifier == name:
            return socket
    return next((socket for socket in enabled if socket.name == name), None)


def links_into(socket):
    """The links into a socket, for one that takes several in the order that the window shows."""
    links = [link for link in socket.links if link.is_valid and not link.is_muted]
    if getattr(socket, "is_multi_input", False):
        # Python can't ask for the place of a link; in 3.4 it is the number behind six pointers and the flags.
        links.sort(key=lambda link: -ctypes.c_int.from_address(link.as_pointer() + 52).value)
    return links


def origin_of(link):
    """The node and the output that a link leads from, through reroutes and muted nodes; none where that is no output."""
    node, output = link.from_node, link.from_socket
    while node.bl_idname == "NodeReroute" or node.mute:
        inside = [node.inputs[0]] if node.bl_idname == "NodeReroute" else []
        inside += [way.from_socket for way in node.internal_links if way.to_socket == output]
        links = links_into(inside[0]) if inside else []
        if not links:
            return None
        node, output = links[0].from_node, links[0].from_socket
    return node, output


def origins(socket):
    return [found for found in map(origin_of, links_into(socket)) if found]


def output_node(tree):
    """The node whose inputs a group gives out."""
    found = [node for node in tree.nodes if node.bl_idname == "NodeGroupOutput"]
    return next((node for node in found if node.is_active_output), found[0] if found else None)


def reached(tree):
    """The nodes that the output of a group is made from, each behind those that it reads."""
    order, seen = [], set()

    def visit(node):
        if node.name in seen:
            return
        seen.add(node.name)
        for socket in node.inputs:
            if socket.enabled:
                for origin, _ in origins(socket):
                    visit(origin)
        order.append(node)

    end = output_node(tree)
    if end:
        visit(end)
    return order


def trees_within(tree):
    """The group and those that it uses, each behind those that it uses."""
    order = []

    def visit(tree):
        if tree in order:
            return
        for node in reached(tree):
            if node.bl_idname == "GeometryNodeGroup" and node.node_tree:
                visit(node.node_tree)
        order.append(tree)

    visit(tree)
    return order


class Components:
    """Which components the geometry at each output may have: `mesh`, `cloud`, `instances`, and with `in ` before it
    what instances may hold. It is the least such sets over all uses of a group."""

    def __init__(self, main):
        self.trees, self.main, self.found = trees_within(main), main, {}
        before = None
        while before != self.found:
            before = dict(self.found)
            for tree in self.trees:
                for node in reached(tree):
                    self.pass_on(tree, node)

    def at(self, tree, node, output):
        return self.found.get((tree.name, node.name, output.identifier), frozenset())

    def into(self, tree, socket):
        return frozenset().union(*[self.at(tree, *origin) for origin in origins(socket)])

    def add(self, tree, node, output, parts):
        key = tree.name, node.name, output.identifier
        self.found[key] = self.found.get(key, frozenset()) | parts

    def pass_on(self, tree, node):
        if node.bl_idname == "NodeGroupInput":
            if tree == self.main:
                for output in node.outputs:
                    self.add(tree, node, output, frozenset([MESH]))
        elif node.bl_idname == "GeometryNodeGroup" and node.node_tree:
            self.pass_through(tree, node)
        else:
            for output in node.outputs:
                if output.type == "GEOMETRY":
                    self.add(tree, node, output, self.given(tree, node, output))

    def pass_through(self, tree, node):
        inner = node.node_tree
        for entry in (n for n in inner.nodes if n.bl_idname == "NodeGroupInput"):
            for socket, output in zip(node.inputs, entry.outputs):
                self.add(inner, entry, output, self.into(tree, socket))
        end = output_node(inner)
        for socket, output in zip(end.inputs if end else [], node.outputs):
            self.add(tree, node, output, self.into(inner, socket))

    def given(self, tree, node, output):
        kind = KINDS[node.bl_idname].name if node.bl_idname in KINDS else ""
        read = {s.identifier: self.into(tree, s) for s in node.inputs if s.type == "GEOMETRY" and s.enabled}
        parts = frozenset().union(*read.values())
        if kind in MAKES and output.identifier != "Min":
            return frozenset([MAKES[kind]])
        if kind in ("geometry_to_instance", "instance_on_points"):
            held = read.get("Instance", parts)
            return frozenset([INSTANCES]) | {"in " + part.removeprefix("in ") for part in held}
        if kind == "realize_instances":
            return frozenset(part.removeprefix("in ") for part in parts) - {INSTANCES}
        if kind == "separate_components":
            kept = SPLITS.get(output.identifier)
            return frozenset(p for p in parts if p == kept or (kept == INSTANCES and p.startswith("in ")))
        return parts


def readers(tree):
    """For each node the nodes that read it, in the group."""
    found = {}
    for node in reached(tree):
        for socket in node.inputs:
            if socket.enabled:
                for origin, _ in origins(socket):
                    found.setdefault(origin.name, []).append(node)
    return found


class Writer:
    """Writes one group; what can't be written and what means something else is added to lists of the whole."""

    def __init__(self, export, tree):
        self.export, self.tree, self.nodes = export, tree, []
        self.names = Names()
        self.sockets = {}
        inputs = Names()
        self.inputs = {socket.identifier: inputs.make(socket.name) for socket in tree.inputs}
        outputs = Names()
        self.outputs = {socket.identifier: outputs.make(socket.name) for socket in tree.outputs}
        self.readers = readers(tree)

    def refuse(self, node, uses, instead):
        line = "%s: %s uses %s; instead: %s" % (self.tree.name, node.name, uses, instead)
        if line not in self.export.refusals:
            self.export.refusals.append(line)

    def note(self, node, difference):
        line = "%s: %s: %s" % (self.tree.name, node.name, DIFFERENCES[difference])
        if line not in self.export.notes:
            self.export.notes.append(line)

    def write(self):
        for node in reached(self.tree):
            if node.bl_idname == "GeometryNodeGroup":
                self.group(node)
            elif node.bl_idname in KINDS:
                self.node(node, KINDS[node.bl_idname])
            elif node.bl_idname not in ("NodeGroupInput", "NodeGroupOutput", "FunctionNodeInputString"):
                self.refuse(node, node.bl_label, "a node of docs/TREES.md")

    def add(self, node, kind, settings, inputs, outputs):
        made = {"id": self.names.make(node.name), "kind": kind}
        if settings:
            made["set"] = settings
        if inputs:
            made["in"] = inputs
        self.nodes.append(made)
        for ours, output in outputs.items():
            self.sockets[node.name, output.identifier] = {"from": made["id"], "socket": ours}
        return made["id"]

    def link(self, reader, origin):
        """What a tree writes for a link from an output."""
        node, output = origin
        if node.bl_idname == "NodeGroupInput":
            return self.entry(reader, output)
        found = self.sockets.get((node.name, output.identifier))
        if found is None and node.bl_idname in KINDS:
            self.refuse(node, "its output " + output.name, "another node for it")
        return found

    def entry(self, reader, output):
        """What a tree writes for an input of the group."""
        if self.tree != self.export.main:
            if output.type not in VALUES:
                self.refuse(reader, "the group's input " + output.name, "inputs of values and geometry")
                return None
            return {"from": "input", "socket": self.inputs[output.identifier]}
        if output.type == "GEOMETRY":
            first = next(socket for socket in self.tree.inputs if socket.type == "GEOMETRY")
            if output.identifier != first.identifier:
                self.refuse(reader, "a second geometry " + output.name, "one geometry, joined beforehand")
            return {"from": "input", "socket": "geometry"}
        return self.entered(reader, output)

    def entered(self, reader, output):
        """A node with the value that an input of the whole tree has."""
        key = "", output.identifier
        if key not in self.sockets:
            kind = VALUES.get(output.type)
            try:
                value = constant(kind, self.export.value(output.identifier)) if kind in CONSTANTS else None
            except ValueError as fault:
                value = None
                self.refuse(reader, "%s of %s" % (output.name, fault), "a number from -2^31 to 2^31")
            if kind not in CONSTANTS:
                self.refuse(reader, "the input " + output.name, "inputs of values and geometry")
            made = {"id": self.names.make(output.name), "kind": CONSTANTS.get(kind, "float"), "set": {"value": value}}
            self.nodes.append(made)
            self.sockets[key] = {"from": made["id"], "socket": "value"}
        return self.sockets[key]

    def input(self, node, socket):
        """What a tree writes at an input; none where the kind's own default serves."""
        kind, found = VALUES.get(socket.type), origins(socket)
        if getattr(socket, "is_multi_input", False):
            return [link for link in (self.link(node, origin) for origin in found) if link] or None
        if found and not self.is_given(found[0], kind):
            return self.link(node, found[0])
        if not found and (socket.hide_value or kind not in CONSTANTS):
            return None
        value = self.export.value(found[0][1].identifier) if found else socket.default_value
        try:
            return constant(kind, value)
        except ValueError as fault:
            self.refuse(node, "%s of %s" % (socket.name, fault), "a number from -2^31 to 2^31")

    def is_given(self, origin, kind):
        """Whether an output is an input of the whole tree with a value of this kind."""
        entry = origin[0].bl_idname == "NodeGroupInput" and self.tree == self.export.main
        return entry and kind in CONSTANTS and VALUES.get(origin[1].type) == kind

    def group(self, node):
        if not node.node_tree:
            self.refuse(node, "no group", "a group")
            return
        inner = self.export.writer(node.node_tree)
        inputs, outputs = {}, {}
        for socket in node.inputs:
            if socket.identifier in inner.inputs and socket.type in VALUES:
                inputs[inner.inputs[socket.identifier]] = self.input(node, socket)
        for output in node.outputs:
            if output.identifier in inner.outputs:
                outputs[inner.outputs[output.identifier]] = output
        inputs = {name: value for name, value in inputs.items() if value is not None}
        self.add(node, "group", {"group": self.export.ids[node.node_tree.name]}, inputs, outputs)

    def node(self, node, kind):
        settings = self.settings(node, kind)
        inputs = {}
        for ours, name in kind.inputs.items():
            socket = socket_of(node.inputs, name)
            value = self.input(node, socket) if socket else None
            if value is not None:
                inputs[ours] = value
        inputs.update(self.rows(node) if kind.name == "transform_geometry" else {})
        outputs = {}
        for ours, name in kind.outputs.items():
            output = socket_of(node.outputs, name)
            if output:
                outputs[self.counted(node, ours)] = output
        self.check(node, kind)
        if kind.name == "math" and node.use_clamp:
            made = self.add(node, kind.name, settings, inputs, {})
            self.add(node, "clamp", {}, {"value": {"from": made, "socket": "value"}}, outputs)
        else:
            self.add(node, kind.name, settings, inputs, outputs)

    def counted(self, node, ours):
        """The number of points of a cloud has an output of its own."""
        return "cloud" if ours == "points" and getattr(node, "component", "") == "POINTCLOUD" else ours

    def settings(self, node, kind):
        made = {}
        for key, choice in (("type", kind.type), ("op", kind.op), ("place", kind.place)):
            if choice:
                used = getattr(node, choice[0])
                if used in choice[1]:
                    made[key] = choice[1][used]
                else:
                    self.refuse(node, used.replace("_", " ").title(), ", ".join(sorted(set(choice[1].values()))))
        if made.get("place") == "point":
            made["place"] = self.place(node, kind)
        if kind.clamp:
            made["clamp"] = getattr(node, kind.clamp)
        if kind.column:
            made["name"] = self.column(node, socket_of(node.inputs, kind.column))
        if kind.value is not None:
            value = getattr(node, kind.value) if kind.value else node.outputs[0].default_value
            try:
                made["value"] = constant(VALUES[node.outputs[0].type], value)
            except ValueError as fault:
                self.refuse(node, str(fault), "a number from -2^31 to 2^31")
        return made

    def column(self, node, socket):
        """The name of a column."""
        name = socket.default_value
        for origin, output in origins(socket):
            if origin.bl_idname == "FunctionNodeInputString":
                name = origin.string
            elif origin.bl_idname == "NodeGroupInput" and self.tree == self.export.main:
                name = self.export.value(output.identifier)
            else:
                self.refuse(node, "a name that nodes make", "the name itself")
        if not re.fullmatch("[!-~]{1,64}", name) or name == "position":
            self.refuse(node, "the name %r" % name, "1 to 64 bytes from ! to ~, and not position")
        return name

    def geometry_parts(self, node, kind):
        """Which components a node's geometry may have, or that of the nodes which read its fields."""
        if kind.geometry:
            socket = socket_of(node.inputs, kind.inputs[kind.geometry])
            return self.export.components.into(self.tree, socket)
        parts, seen, waiting = frozenset(), set(), [node]
        while waiting:
            for reader in self.readers.get(waiting.pop().name, []):
                if reader.name in seen:
                    continue
                seen.add(reader.name)
                read = KINDS.get(reader.bl_idname)
                if read and read.geometry:
                    parts |= self.geometry_parts(reader, read)
                else:
                    waiting.append(reader)
        return parts

    def place(self, node, kind):
        """Vertices of a mesh, or points of a cloud."""
        parts = self.geometry_parts(node, kind) & {MESH, CLOUD}
        if parts == {MESH, CLOUD}:
            self.refuse(node, "vertices and points of a cloud at once", "Separate Components in front of it")
        return "cloud" if parts == {CLOUD} else "point"

    def check(self, node, kind):
        """What has to be as it is in a tree, and what means something else."""
        for name, (want, instead) in kind.fixed.items():
            if getattr(node, name) != want:
                self.refuse(node, str(getattr(node, name)).replace("_", " ").title(), instead)
        for name, (want, instead) in kind.still.items():
            socket = socket_of(node.inputs, name)
            if socket and (links_into(socket) or not same(socket.default_value, want)):
                self.refuse(node, name, instead)
        for name in kind.dropped:
            socket = socket_of(node.inputs, name)
            if socket and links_into(socket):
                self.refuse(node, "a link to " + name, "an attribute")
        parts = self.geometry_parts(node, kind) if kind.geometry else frozenset()
        place = getattr(node, kind.place[0]) if kind.place else ""
        if kind.goes_into_instances and INSTANCES in parts and place != "INSTANCE":
            self.refuse(node, "geometry of instances", REALIZE)
        self.check_kind(node, kind, parts)
        for difference in kind.notes:
            self.note(node, difference)

    def check_kind(self, node, kind, parts):
        """What only one kind asks."""
        if kind.name == "delete_geometry":
            mode = {"EDGE": "EDGE_FACE", "FACE": "ONLY_FACE"}.get(node.domain, "ALL")
            if node.mode != mode and node.domain != "INSTANCE":
                names = {"ALL": "All", "EDGE_FACE": "Only Edges & Faces", "ONLY_FACE": "Only Faces"}
                self.refuse(node, "the mode " + names[node.mode], "the mode " + names[mode])
        if kind.name == "duplicate_elements" and MESH in parts:
            self.refuse(node, "vertices of a mesh", "Mesh to Points in front of it")
        if kind.name == "domain_size" and node.component == "CURVE":
            self.refuse(node, "curves", "meshes, point clouds and instances")
        if kind.name == "math" and node.operation == "MODULO":
            self.note(node, "modulo")
        if kind.name in ("mesh_line", "grid", "cube", "points", "transform_geometry"):
            if any(self.varies(socket) for socket in node.inputs if socket.enabled and socket.name != "Position"):
                self.note(node, "field at a single value")

    def varies(self, socket):
        """Whether a link into a socket brings a field that reads elements."""
        seen, waiting = set(), [node for node, _ in origins(socket)]
        while waiting:
            node = waiting.pop()
            if node.name in seen or any(output.type == "GEOMETRY" for output in node.outputs):
                continue
            seen.add(node.name)
            if node.bl_idname.startswith("GeometryNodeInput") or node.bl_idname == "FunctionNodeRandomValue":
                return True
            waiting += [origin for way in node.inputs if way.enabled for origin, _ in origins(way)]
        return False

    def rows(self, node):
        """The rows of a transform with constant angles and factors."""
        turn, scale = socket_of(node.inputs, "Rotation"), socket_of(node.inputs, "Scale")
        if links_into(turn) or links_into(scale):
            self.refuse(node, "a link to Rotation or Scale", "constants, or Set Position")
            return {}
        matrix = turn.default_value.to_matrix()
        names = ("row_x", "row_y", "row_z")
        try:
            return {
                name: [text_of(row[at] * scale.default_value[at]) for at in range(3)]
                for name, row in zip(names, matrix)
            }
        except ValueError as fault:
            self.refuse(node, str(fault), "a number from -2^31 to 2^31")
            return {}

    def given_out(self):
        """What the group gives out, by the names of its outputs."""
        end = output_node(self.tree)
        made = {}
        for socket in end.inputs if end else []:
            if socket.identifier in self.outputs and socket.type in VALUES:
                value = self.input(end, socket)
                if value is not None:
                    made[self.outputs[socket.identifier]] = value
        return made


def same(value, want):
    return tuple(value) == want if isinstance(want, tuple) else value == want


class Export:
    """A whole tree."""

    def __init__(self, main, modifier=None):
        self.main, self.modifier = main, modifier
        self.refusals, self.notes, self.writers = [], [], {}
        self.components = Components(main)
        names = Names()
        self.ids = {tree.name: names.make(tree.name) for tree in self.components.trees}

    def value(self, identifier):
        """What an input of the whole tree has: the modifier's value, or the group's."""
        if self.modifier is not None and identifier in self.modifier.keys():
            if self.modifier.get(identifier + "_use_attribute"):
                self.refusals.append("%s: an input reads an attribute; instead: Named Attribute" % self.main.name)
            return self.modifier[identifier]
        return next(socket.default_value for socket in self.main.inputs if socket.identifier == identifier)

    def writer(self, tree):
        if tree.name not in self.writers:
            self.writers[tree.name] = Writer(self, tree)
            self.writers[tree.name].write()
        return self.writers[tree.name]

    def group(self, tree):
        writer = self.writer(tree)
        made = {"name": self.ids[tree.name]}
        for key, sockets, ids in (("inputs", tree.inputs, writer.inputs), ("outputs", tree.outputs, writer.outputs)):
            made[key] = [
                {"name": ids[socket.identifier], "kind": VALUES[socket.type]} for socket in sockets if socket.type in VALUES
            ]
        made["nodes"] = writer.nodes
        given = writer.given_out()
        return {**made, "output": given} if given else made

    def tree(self):
        groups = [self.group(tree) for tree in self.components.trees if tree != self.main]
        writer = self.writer(self.main)
        end = output_node(self.main)
        made = {"format": 1}
        if groups:
            made["groups"] = groups
        made["nodes"] = writer.nodes
        out = next((socket for socket in end.inputs if socket.type == "GEOMETRY"), None) if end else None
        given = writer.input(end, out) if out else None
        if given is not None:
            made["output"] = given
        return made


def mesh_lines(mesh):
    """The lines of an OBJ: vertices, edges that no face has, and faces."""
    for vertex in mesh.vertices:
        yield "v " + " ".join(text_of(part) for part in vertex.co)
    of_faces = {loop.edge_index for loop in mesh.loops}
    for edge in mesh.edges:
        if edge.index not in of_faces:
            yield "l %d %d" % tuple(at + 1 for at in edge.vertices)
    for face in mesh.polygons:
        yield "f " + " ".join(str(at + 1) for at in face.vertices)


def lines_of(tree):
    """The text of a tree, with a line for each node."""

    def listed(nodes, indent):
        return "[" + ",".join("\n" + indent + " " + json.dumps(node) for node in nodes) + "\n" + indent + "]"

    def members(of, indent):
        return [
            '%s "%s": %s' % (indent, key, listed(of[key], indent + " ") if key == "nodes" else json.dumps(of[key]))
            for key in of
            if key != "groups"
        ]

    groups = ["  {\n" + ",\n".join(members(group, "  ")) + "\n  }" for group in tree.get("groups", [])]
    parts = members(tree, "")
    if groups:
        parts.insert(1, ' "groups": [\n' + ",\n".join(groups) + "\n ]")
    return "{\n" + ",\n".join(parts) + "\n}\n"


def put(path, text):
    """The whole file, or nothing."""
    with open(path + ".part", "w", encoding="utf-8", newline="\n") as file:
        file.write(text)
    os.replace(path + ".part", path)


def main(words):
    import bpy

    if len(words) not in (2, 4) or words[2:3] not in ([], ["--object"]):
        sys.exit("usage: blender -b FILE.blend --python export_tree.py -- GROUP TREE.json [--object NAME]")
    if bpy.app.version[:2] != (3, 4):
        sys.exit("this exporter knows Blender 3.4 alone, and this is %s" % bpy.app.version_string)
    group = bpy.data.node_groups.get(words[0])
    if group is None or group.bl_idname != "GeometryNodeTree":
        sys.exit("there is no geometry node group with the name " + words[0])
    held = bpy.data.objects.get(words[3]) if words[2:] else None
    if words[2:] and (held is None or held.type != "MESH"):
        sys.exit("there is no mesh object with the name " + words[3])
    modifiers = [m for m in held.modifiers if m.type == "NODES" and m.node_group == group] if held else []
    export = Export(group, modifiers[0] if modifiers else None)
    tree = export.tree()
    lines = ["%s" % line for line in export.refusals] or ["note: " + line for line in export.notes]
    for line in lines:
        print(line, file=sys.stderr)
    if export.refusals:
        sys.exit(1)
    if held:
        obj = "".join(line + "\n" for line in mesh_lines(held.data))
        put(os.path.join(os.path.dirname(os.path.abspath(words[1])), "in.obj"), obj)
    put(words[1], lines_of(tree))


if __name__ == "__main__" and "--" in sys.argv:
    main(sys.argv[sys.argv.index("--") + 1 :])
