#!/usr/bin/env python3
"""Compares what Blender 3.4 and geonodes make of the same groups. By hand:

    python3 tests/against_blender.py [SEED]

Blender makes a group for each kind that both have, and chains of ten nodes at random, evaluates each on one mesh, and
exports it. Then the program checks each tree and evaluates it, and what both made is compared: vertices to 1e-4, edges and
faces by their vertices. A tree that the program can't evaluate yet (status 11) is counted apart. Groups that meet a
difference of docs/BLENDER.md are named with it where they differ.
"""

import json
import os
import random
import subprocess
import sys
import tempfile

TOP = os.path.dirname(os.path.dirname(os.path.abspath(__file__)))
sys.path.insert(0, os.path.join(TOP, "tools"))

# A quad, a triangle, a loose edge and a loose vertex.
VERTICES = [(0, 0, 0), (1, 0, 0.25), (1, 1, 0), (0, 1, -0.5), (2, 0.5, 0), (3, 0, 0), (3, 1, 1), (4, 4, 4)]
EDGES = [(5, 6)]
FACES = [(0, 1, 2, 3), (1, 4, 2)]
CHAINS = 20
# What a group is refused for, with the property or the socket that asks for it.
REFUSED = [
    ("ShaderNodeMath", "operation", "SINE"),
    ("ShaderNodeVectorMath", "operation", "PROJECT"),
    ("FunctionNodeBooleanMath", "operation", "XNOR"),
    ("FunctionNodeCompare", "data_type", "VECTOR"),
    ("FunctionNodeCompare", "operation", "EQUAL"),
    ("ShaderNodeClamp", "clamp_type", "RANGE"),
    ("ShaderNodeMapRange", "interpolation_type", "STEPPED"),
    ("ShaderNodeMapRange", "data_type", "FLOAT_VECTOR"),
    ("ShaderNodeMix", "clamp_factor", False),
    ("ShaderNodeMix", "data_type", "RGBA"),
    ("GeometryNodeAccumulateField", "domain", "CURVE"),
    ("GeometryNodeStoreNamedAttribute", "data_type", "FLOAT_COLOR"),
    ("GeometryNodeAttributeStatistic", "data_type", "FLOAT_VECTOR"),
    ("GeometryNodeDeleteGeometry", "mode", "ONLY_FACE"),
    ("GeometryNodeDeleteGeometry", "domain", "FACE"),
    ("GeometryNodeSeparateGeometry", "domain", "FACE"),
    ("GeometryNodeDuplicateElements", "domain", "EDGE"),
    ("GeometryNodeMeshLine", "mode", "END_POINTS"),
    ("GeometryNodeMeshLine", "count_mode", "RESOLUTION"),
    ("GeometryNodeRealizeInstances", "legacy_behavior", True),
    ("GeometryNodeMeshCube", "Vertices X", 3),
    ("GeometryNodeInstanceOnPoints", "Pick Instance", True),
    ("GeometryNodeInstanceOnPoints", "Rotation", (1, 0, 0)),
    ("GeometryNodeTranslateInstances", "Local Space", True),
    ("GeometryNodeScaleInstances", "Local Space", False),
    ("GeometryNodeScaleInstances", "Center", (1, 0, 0)),
    ("GeometryNodeStoreNamedAttribute", "Name", "position"),
    ("GeometryNodeInputNamedAttribute", "Name", "two words"),
]


class Maker:
    """Makes groups in Blender."""

    def __init__(self, bpy):
        self.bpy, self.data = bpy, bpy.data

    def group(self, name):
        tree = self.data.node_groups.new(name, "GeometryNodeTree")
        tree.inputs.new("NodeSocketGeometry", "Geometry")
        tree.outputs.new("NodeSocketGeometry", "Geometry")
        return tree, tree.nodes.new("NodeGroupInput").outputs[0], tree.nodes.new("NodeGroupOutput").inputs[0]

    def settle(self, node, kind):
        """Values that a tree takes and that show what the node does."""
        for name, (want, _) in kind.still.items():
            if name in node.inputs:
                node.inputs[name].default_value = want
        if kind.column:
            node.inputs[kind.column].default_value = "weight"
        if kind.name == "float":
            node.outputs[0].default_value = 0.3
        if kind.value:
            setattr(node, kind.value, {"integer": 3, "boolean": True, "vector": (0.5, -2, 0.125)}[kind.value])

    def feed(self, tree, node, geometry):
        """Links the position and the index to what reads them, and geometry to the rest."""
        position = tree.nodes.new("GeometryNodeInputPosition").outputs[0]
        index = tree.nodes.new("GeometryNodeInputIndex").outputs[0]
        for socket in node.inputs:
            if socket.enabled and socket.name == "Selection":
                tree.links.new(index, socket)
            if not socket.enabled or socket.hide_value:
                continue
            if socket.type == "GEOMETRY":
                tree.links.new(geometry, socket)
            elif socket.type == "VECTOR" and socket.name in ("Vector", "Value", "A"):
                tree.links.new(position, socket)
            elif socket.type in ("VALUE", "INT") and socket.name in ("Value", "A", "X", "Float"):
                tree.links.new(index, socket)

    def finish(self, tree, node, geometry, out):
        """Gives out the node's geometry, or moves by its values; clouds and instances as meshes."""
        made = [socket for socket in node.outputs if socket.enabled]
        shapes = [socket for socket in made if socket.type == "GEOMETRY"]
        if not shapes:
            move = tree.nodes.new("GeometryNodeSetPosition")
            tree.links.new(geometry, move.inputs["Geometry"])
            tree.links.new(made[0], move.inputs["Offset"])
            shapes = [move.outputs[0]]
        if shapes[0].name == "Points" or node.bl_idname in ("GeometryNodePoints", "GeometryNodeDuplicateElements"):
            turn = tree.nodes.new("GeometryNodePointsToVertices")
            tree.links.new(shapes[0], turn.inputs[0])
            shapes = [turn.outputs[0]]
        elif shapes[0].name == "Instances":
            turn = tree.nodes.new("GeometryNodeRealizeInstances")
            tree.links.new(shapes[0], turn.inputs[0])
            shapes = [turn.outputs[0]]
        tree.links.new(shapes[0], out)

    def source(self, tree, kind, geometry):
        """The geometry that a kind is tried on."""
        if kind.name in ("duplicate_elements", "points_to_vertices"):
            turn = tree.nodes.new("GeometryNodeMeshToPoints")
        elif kind.name in ("translate_instances", "scale_instances", "instances_to_points", "realize_instances"):
            turn = tree.nodes.new("GeometryNodeGeometryToInstance")
        else:
            return geometry
        tree.links.new(geometry, turn.inputs[0])
        return turn.outputs[0]

    def one(self, of, kind, name=None, change=None):
        tree, geometry, out = self.group(name or kind.name)
        node = tree.nodes.new(of)
        if change:
            self.change(node, *change)
        else:
            self.settle(node, kind)
        self.feed(tree, node, self.source(tree, kind, geometry))
        self.finish(tree, node, geometry, out)
        return tree

    def change(self, node, name, value):
        if hasattr(node, name):
            setattr(node, name, value)
        else:
            node.inputs[name].default_value = value

    def chain(self, number, chance):
        """Ten nodes of numbers and vectors, each on an earlier one."""
        from blender_kinds import MATH, VECTOR_MATH

        tree, geometry, out = self.group("chain %d" % number)
        made = [tree.nodes.new("GeometryNodeInputPosition").outputs[0], tree.nodes.new("GeometryNodeInputIndex").outputs[0]]
        for _ in range(10):
            node = tree.nodes.new(chance.choice(["ShaderNodeMath", "ShaderNodeVectorMath", "ShaderNodeMix", "ShaderNodeClamp"]))
            if node.bl_idname == "ShaderNodeMath":
                node.operation = chance.choice(sorted(set(MATH) - {"MODULO"}))
            elif node.bl_idname == "ShaderNodeVectorMath":
                node.operation = chance.choice(sorted(VECTOR_MATH))
            for socket in node.inputs:
                if not socket.enabled or socket.type not in ("VALUE", "VECTOR"):
                    continue
                if chance.random() < 0.6:
                    tree.links.new(chance.choice(made), socket)
                elif socket.type == "VALUE":
                    socket.default_value = chance.randrange(-8, 9) / 4
                else:
                    socket.default_value = [chance.randrange(-8, 9) / 4 for _ in range(3)]
            made.append(next(socket for socket in node.outputs if socket.enabled))
        move = tree.nodes.new("GeometryNodeSetPosition")
        tree.links.new(geometry, move.inputs["Geometry"])
        tree.links.new(made[-1], move.inputs["Offset"])
        tree.links.new(move.outputs[0], out)
        return tree

    def evaluate(self, tree):
        """The mesh that a modifier with the group makes."""
        mesh = self.data.meshes.new("mesh")
        mesh.from_pydata(VERTICES, EDGES, FACES)
        held = self.data.objects.new("held", mesh)
        self.bpy.context.scene.collection.objects.link(held)
        held.modifiers.new("nodes", "NODES").node_group = tree
        made = held.evaluated_get(self.bpy.context.evaluated_depsgraph_get()).data
        found = {
            "v": [list(vertex.co) for vertex in made.vertices],
            "f": [list(face.vertices) for face in made.polygons],
        }
        of_faces = {loop.edge_index for loop in made.loops}
        found["l"] = [list(edge.vertices) for edge in made.edges if edge.index not in of_faces]
        self.data.objects.remove(held)
        return found


def in_blender(folder, seed):
    import bpy
    from blender_kinds import KINDS
    from export_tree import Export, mesh_lines

    maker, chance = Maker(bpy), random.Random(seed)
    mesh = bpy.data.meshes.new("input")
    mesh.from_pydata(VERTICES, EDGES, FACES)
    with open(os.path.join(folder, "in.obj"), "w") as file:
        file.writelines(line + "\n" for line in mesh_lines(mesh))
    trees = [maker.one(of, kind) for of, kind in KINDS.items()]
    trees += [maker.chain(number, chance) for number in range(CHAINS)]
    results = []
    for tree in trees:
        export = Export(tree)
        made = export.tree()
        found = {"name": tree.name, "refused": export.refusals, "notes": export.notes, "made": maker.evaluate(tree)}
        results.append(found)
        with open(os.path.join(folder, tree.name + ".json"), "w") as file:
            json.dump(made, file)
    for of, name, value in REFUSED:
        export = Export(maker.one(of, KINDS[of], of + " " + name, (name, value)))
        export.tree()
        if not export.refusals:
            print("%s with %s %s is not refused" % (of, name, value))
    with open(os.path.join(folder, "results.json"), "w") as file:
        json.dump(results, file)


def read_obj(text):
    found = {"v": [], "l": [], "f": []}
    for line in text.splitlines():
        first, *words = line.split()
        if first == "v":
            found["v"].append([float(word) for word in words])
        elif first in found:
            found[first].append([int(word) - 1 for word in words])
    return found


def alike(one, other):
    """Whether two meshes are the same to 1e-4, with the vertices in their order."""
    if len(one["v"]) != len(other["v"]):
        return False
    near = all(abs(a - b) <= 1e-4 * max(1, abs(a)) for p, q in zip(one["v"], other["v"]) for a, b in zip(p, q))
    edges = [sorted(sorted(edge) for edge in mesh["l"]) for mesh in (one, other)]
    return near and edges[0] == edges[1] and sorted(one["f"]) == sorted(other["f"])


def run(*words):
    return subprocess.run([os.path.join(TOP, "bin", "geonodes"), *words], capture_output=True, text=True)


def compare(folder, result):
    """What is wrong with a group, or nothing, or `waiting`."""
    path = os.path.join(folder, result["name"] + ".json")
    if result["refused"]:
        return "refused: " + "; ".join(result["refused"])
    checked = run("check", path)
    if checked.stdout != "ok\n":
        return "check: " + checked.stderr.strip()
    done = run("eval", path, os.path.join(folder, "in.obj"))
    if done.returncode == 11:
        return "waiting"
    if done.returncode:
        return "eval: " + done.stderr.strip()
    if alike(result["made"], read_obj(done.stdout)):
        return ""
    return "differs" + "".join("; " + note.rpartition(": ")[2] for note in result["notes"])


def main():
    seed = sys.argv[1] if sys.argv[1:] else "1"
    with tempfile.TemporaryDirectory() as folder:
        words = ["blender", "-b", "-t", "1", "--factory-startup", "--python", os.path.abspath(__file__), "--", folder, seed]
        made = subprocess.run(words, capture_output=True, text=True)
        told = [line for line in made.stdout.splitlines() if "is not refused" in line]
        if not os.path.exists(os.path.join(folder, "results.json")):
            sys.exit(made.stdout + made.stderr)
        with open(os.path.join(folder, "results.json")) as file:
            results = json.load(file)
        found = [(result["name"], compare(folder, result)) for result in results]
    for name, what in found:
        if what not in ("", "waiting"):
            print("%s: %s" % (name, what))
    counts = [sum(what == "" for _, what in found), sum(what == "waiting" for _, what in found)]
    print("%d groups are alike, %d wait for kinds, of %d" % (*counts, len(found)))
    print("%d of %d refusals" % (len(REFUSED) - len(told), len(REFUSED)), *told, sep="\n")
    sys.exit(1 if told or any(what.startswith(("check", "eval", "refused")) for _, what in found) else 0)


if __name__ == "__main__":
    if "--" in sys.argv:
        in_blender(*sys.argv[sys.argv.index("--") + 1 :])
    else:
        main()
