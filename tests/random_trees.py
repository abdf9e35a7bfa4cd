#!/usr/bin/env python3
"""Compares `geonodes check` with another reading of trees (`tree_rules.py`) on random ones.

    python3 tests/random_trees.py [TREES] [SEED]

makes that many trees (1,000 by default): nodes of all kinds in the tree's list, in groups and in zones,
well formed or damaged in up to four ways, some as broken JSON. It fails at the first one for which the
program's status, output or message is another. `bin/geonodes` builds the program where it is missing.
"""

import copy
import json
import os
import random
import subprocess
import sys
import tempfile

import tree_rules as rules

TOP = os.path.dirname(os.path.dirname(os.path.abspath(__file__)))
PROVED = os.path.join(TOP, "out", "geonodes")
WORDS = ["a", "b", "c", "g", "h", "x", "value", "geometry", "input", "output", "iteration", "iterations"]
JUNK = [
    None, True, False, 0, 1, 2, 2**31, -(2**31) - 1, 2**64, 0.5, 1.0, "", "0", "1e99", "1e100", ".", "-0",
    "a", "geometry", "point", "repeat", "group", "A", "x" * 33, "é", [], {}, ["0", "0", "0"], ["0", "1"],
    [True, {}], [{}], {"from": "a", "socket": "value"}, {"from": "input", "socket": "geometry"},
    [{"from": "input", "socket": "geometry"}, 1], {"from": "a"},
]


class Maker:
    def __init__(self, chance):
        self.chance = chance
        self.names = 0

    def fresh(self):
        self.names += 1
        return f"n{self.names}"

    def constant(self, letter):
        number = lambda: self.chance.choice(["0", "1", "-0.5", ".25e1", "+7.", "1e-99"])
        return {
            "T": lambda: self.chance.random() < 0.5,
            "I": lambda: self.chance.choice([0, 1, -1, 2**31 - 1, -(2**31)]),
            "X": number,
            "V": lambda: [number(), number(), number()],
        }[letter]()

    def setting(self, key, form, groups, depth):
        pick = self.chance.choice
        if key == "value":
            return self.constant(form)
        if key == "type":
            return rules.SOCKET_KINDS[pick(form)]
        if key == "op":
            return pick(form.split(","))
        if key == "place":
            return rules.PLACES[pick(form)]
        if key == "items":
            return self.sockets()
        return {
            "clamp": lambda: pick([True, False]),
            "name": lambda: pick(["mass", "~", "!" * 64]),
            "file": lambda: pick(["a.obj", "no such file", "é" * 127]),
            "group": lambda: groups[pick(range(len(groups)))]["name"] if groups else "g",
        }[key]()

    def sockets(self):
        kinds = list(rules.SOCKET_KINDS.values())
        return [{"name": self.fresh(), "kind": self.chance.choice(kinds)} for _ in range(self.chance.randrange(4))]

    def link(self, letter, nodes, entries, groups):
        """A link to something that meets the kind, where there is something."""
        reader = rules.Rules({"nodes": [], "groups": groups})
        ends = [("input", name, kind) for name, kind in entries.items()]
        for node in nodes:
            ends += [(node["id"], name, kind) for name, kind in reader.sockets(node, False).items()]
        ends = [(origin, name) for origin, name, kind in ends if (kind == "G") == (letter[0] == "G")]
        if not ends:
            return None
        origin, name = self.chance.choice(ends)
        return {"from": origin, "socket": name}

    def an_input(self, letter, nodes, entries, groups):
        link = self.link(letter, nodes, entries, groups)
        if letter == "G*" and self.chance.random() < 0.5:
            return [x for x in (self.link(letter, nodes, entries, groups) for _ in range(3)) if x]
        if link is not None and (letter[0] == "G" or self.chance.random() < 0.6):
            return link
        return None if letter[0] == "G" else self.constant(letter)

    def inputs(self, sockets, nodes, entries, groups):
        found = {}
        for name, letter in sockets.items():
            value = self.an_input(letter, nodes, entries, groups) if self.chance.random() < 0.7 else None
            if value is not None:
                found[name] = value
        return found

    def node(self, nodes, entries, groups, depth):
        names = [n for n in rules.TABLE if (n != "repeat" or depth < 3) and (n != "group" or groups)]
        weights = [8 if n in ("repeat", "group") else 1 for n in names]
        kind = rules.TABLE[self.chance.choices(names, weights)[0]]
        node = {"id": self.fresh(), "kind": kind.name}
        if kind.settings:
            node["set"] = {
                key: self.setting(key, form, groups, depth)
                for key, form in kind.settings.items()
                if key not in ("nodes", "output")
            }
        if kind.name == "repeat":
            items = node["set"]["items"]
            inner = {"iteration": "I", **{i["name"]: rules.letter_of(i["kind"]) for i in items}}
            node["set"]["nodes"] = self.nodes(inner, groups, depth + 1, 3)
            if self.chance.random() < 0.8:
                sockets = {i["name"]: rules.letter_of(i["kind"]) for i in items}
                node["set"]["output"] = self.inputs(sockets, node["set"]["nodes"], inner, groups)
        reader = rules.Rules({"nodes": [], "groups": groups})
        found = self.inputs(reader.sockets(node, True), nodes, entries, groups)
        if found or self.chance.random() < 0.3:
            node["in"] = found
        return node

    def nodes(self, entries, groups, depth, most):
        made = []
        for _ in range(self.chance.randrange(most + 1)):
            made.append(self.node(made, entries, groups, depth))
        self.chance.shuffle(made)
        return made

    def tree(self):
        groups = []
        for _ in range(self.chance.randrange(4)):
            group = {"name": self.fresh(), "inputs": self.sockets(), "outputs": self.sockets()}
            entries = {s["name"]: rules.letter_of(s["kind"]) for s in group["inputs"]}
            group["nodes"] = self.nodes(entries, groups, 0, 4)
            outputs = {s["name"]: rules.letter_of(s["kind"]) for s in group["outputs"]}
            group["output"] = self.inputs(outputs, group["nodes"], entries, groups)
            groups.append(group)
        tree = {"format": 1, "nodes": self.nodes({"geometry": "G"}, groups, 0, 6)}
        if groups or self.chance.random() < 0.3:
            tree["groups"] = groups
        output = self.an_input("G", tree["nodes"], {"geometry": "G"}, groups)
        if output is not None and self.chance.random() < 0.9:
            tree["output"] = output
        return tree


def spots(value, found):
    """All (holder, key) pairs in a value."""
    for key in value.keys() if isinstance(value, dict) else range(len(value)):
        found.append((value, key))
        if isinstance(value[key], (dict, list)):
            spots(value[key], found)
    return found


def rename(chance, tree):
    """One text becomes another that is under the same key somewhere, so that links lead elsewhere."""
    texts_at = [spot for spot in spots(tree, []) if isinstance(spot[0][spot[1]], str)]
    if texts_at:
        holder, key = chance.choice(texts_at)
        texts = [h[k] for h, k in texts_at if k == key]
        holder[key] = chance.choice(texts * 3 + WORDS)


def move_input(chance, tree):
    """An input of some node becomes one of another."""
    inputs = [spot for spot in spots(tree, []) if isinstance(spot[0][spot[1]], dict) and "from" in spot[0][spot[1]]]
    if inputs:
        holder, key = chance.choice(inputs)
        other, name = chance.choice(inputs)
        holder[key] = copy.deepcopy(other[name])


def put_junk(chance, tree):
    """Another value at a random spot."""
    if tree:
        holder, key = chance.choice(spots(tree, []))
        holder[key] = copy.deepcopy(chance.choice(JUNK))


def change_keys(chance, tree):
    """A key or an item is gone, comes twice or stands elsewhere."""
    if not tree:
        return
    holder, key = chance.choice(spots(tree, []))
    if chance.random() < 0.4:
        del holder[key]
    elif isinstance(holder, dict):
        holder[chance.choice(WORDS)] = copy.deepcopy(holder[key])
    else:
        holder.insert(chance.randrange(len(holder) + 1), copy.deepcopy(holder[key]))


def damage(chance, tree):
    """One change: mostly one after which the tree is still of its form."""
    chance.choice([rename, rename, rename, move_input, move_input, put_junk, change_keys])(chance, tree)


def random_text(chance):
    tree = Maker(chance).tree()
    for _ in range(chance.choice([0, 0, 1, 1, 1, 2, 3, 4])):
        damage(chance, tree)
    text = json.dumps(tree, ensure_ascii=chance.random() < 0.5, indent=chance.choice([None, 1])).encode()
    if chance.random() < 0.03:
        cut = chance.randrange(len(text))
        text = text[:cut] + chance.choice([b"", b"\xff", b"}", b"1e400", b"-0"]) + text[cut + 1 :]
    return text


def wanted(text):
    """The status, the output and the message of `geonodes check`."""
    found = rules.verdict(text)
    if found[0] == "ok":
        return 0, b"ok\n", b""
    if found[0] == "text":
        return 6, b"", b"geonodes: tree text\n"
    return 7, b"", f"geonodes: tree form: F{found[1]} at {found[2]}\n".encode("utf-8", "replace")


def run(words, folder):
    done = subprocess.run([PROVED] + words, cwd=folder, capture_output=True, timeout=60)
    return done.returncode, done.stdout, done.stderr


def main():
    count = int(sys.argv[1]) if len(sys.argv) > 1 else 1000
    seed = int(sys.argv[2]) if len(sys.argv) > 2 else 1
    chance = random.Random(seed)
    if not os.path.exists(PROVED):
        subprocess.run([os.path.join(TOP, "bin", "geonodes"), "--version"], check=True)
    tally = {}
    with tempfile.TemporaryDirectory() as folder:
        for number in range(count):
            text = random_text(chance)
            with open(os.path.join(folder, "t.json"), "wb") as file:
                file.write(text)
            want, got = wanted(text), run(["check", "t.json"], folder)
            if got != want:
                print(text.decode(errors="replace"))
                print(f"tree {number} of seed {seed}: expected {want}, got {got}")
                return 1
            verdict = want[2].split(b" at ")[0].decode() or "ok"
            tally[verdict] = tally.get(verdict, 0) + 1
    for verdict, times in sorted(tally.items()):
        print(f"{times:6} {verdict.strip()}")
    print(f"{count} trees were read alike")
    return 0


if __name__ == "__main__":
    sys.exit(main())
