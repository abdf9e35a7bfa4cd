#!/usr/bin/env python3
"""Runs `geonodes` on files that someone made to hurt it, beside ordinary ones of the same size.

    python3 tests/hostile.py [COUNT] [RUNS] [PROGRAM]

makes trees and OBJ files with about COUNT names, faces or edges (100,000 by default), runs each RUNS
times (3 by default), and prints the least time of the processor of each hostile file, that of the
ordinary one beside it, and their ratio. It ends with status 1 where a ratio is above 3. PROGRAM is the
proved program; `bin/geonodes` builds it where none is named. The names and edges whose hashes collide are
found by `tests/colliding.rs`, which `rustc` builds.
"""

import math
import os
import random
import subprocess
import sys
import tempfile

TOP = os.path.dirname(os.path.dirname(os.path.abspath(__file__)))
TREE = os.path.join(TOP, "examples", "lift.json")
MOST = 3.0


def seconds(words, runs):
    """The least time of the processor of some runs, and the status of the last."""
    best = math.inf
    for _ in range(runs):
        child = subprocess.Popen(words, stdout=subprocess.DEVNULL, stderr=subprocess.DEVNULL)
        _, status, usage = os.wait4(child.pid, 0)
        child.returncode = os.waitstatus_to_exitcode(status)
        best = min(best, usage.ru_utime + usage.ru_stime)
    return best, child.returncode


def tree(names):
    """A well-formed tree: nodes with these names stand in a group that nothing uses."""
    nodes = ",".join('{"id":"%s","kind":"id"}' % name for name in names)
    group = '{"name":"g","inputs":[],"outputs":[],"nodes":[%s]}' % nodes
    return '{"format":1,"groups":[%s],"nodes":[]}\n' % group


def obj(vertices, lines):
    """An OBJ of that many vertices, and of these lines of references, counted from 1."""
    points = "".join(f"v {i % 1000} {i // 1000} 0.5\n" for i in range(vertices))
    return points + "".join(f"{word} {' '.join(map(str, row))}\n" for word, row in lines)


def shuffled(rows, seed=1):
    rows = list(rows)
    random.Random(seed).shuffle(rows)
    return rows


def faces(rows):
    return [("f", row) for row in rows]


def rows(edges):
    return [("l", edge) for edge in edges]


def strip(count):
    return [(i, i + 1, i + 2) for i in range(1, count + 1)]


def random_rows(count, vertices, length, seed=2):
    pick = random.Random(seed)
    return [pick.sample(range(1, vertices + 1), length) for _ in range(count)]


def collisions(program, what, count, bits):
    text = subprocess.run([program, what, str(count), str(bits)], check=True, capture_output=True).stdout
    return text.decode().split("\n")[:-1]


def cases(colliding, count):
    """Each hostile file with an ordinary one of its length and kind: a name, whether it is a tree, both."""
    # A tree has at most 4 MiB.
    nodes = min(count, 140_000)
    plain = [f"n{i:05x}" for i in shuffled(range(nodes))]
    yield "names that collide", True, tree(collisions(colliding, "names", nodes, 12)), tree(plain)
    yield "names in order", True, tree(sorted(plain)), tree(plain)
    fan = [(1, i, i + 1) for i in range(2, count + 2)]
    edge = [(1, 2, i) for i in range(3, count + 3)]
    ordinary = strip(count)
    yield "fan", False, obj(count + 3, faces(fan)), obj(count + 3, faces(ordinary))
    yield "fan, shuffled", False, obj(count + 3, faces(shuffled(fan))), obj(count + 3, faces(shuffled(ordinary)))
    yield "faces on one edge", False, obj(count + 3, faces(edge)), obj(count + 3, faces(ordinary))
    scattered = shuffled(edge), shuffled(ordinary)
    yield "faces on one edge, shuffled", False, *(obj(count + 3, faces(list)) for list in scattered)
    half = math.isqrt(count)
    halves = [(a, half + b) for a in range(1, half + 1) for b in range(1, half + 1)]
    loose = random_rows(len(halves), count, 2)
    tidy = [(i, i + 1) for i in range(1, len(halves) + 1)]
    yield "two halves", False, obj(count + 1, rows(halves)), obj(count + 1, rows(tidy))
    yield "two halves, shuffled", False, obj(count + 1, rows(shuffled(halves))), obj(count + 1, rows(loose))
    collide = [tuple(map(int, edge.split())) for edge in collisions(colliding, "edges", count, 15)]
    yield "edges that collide", False, obj(100000, rows(collide)), obj(100000, rows(random_rows(len(collide), 100000, 2)))
    big = list(range(1, count + 1))
    yield "one face", False, obj(count, faces([big])), obj(count, faces(strip(count - 2)))
    yield "one face, shuffled", False, obj(count, faces([shuffled(big)])), obj(count, faces(shuffled(strip(count - 2))))


def main():
    count = int(sys.argv[1]) if len(sys.argv) > 1 else 100_000
    runs = int(sys.argv[2]) if len(sys.argv) > 2 else 3
    program = sys.argv[3] if len(sys.argv) > 3 else os.path.join(TOP, "bin", "geonodes")
    worst = 0.0
    with tempfile.TemporaryDirectory() as folder:
        colliding = os.path.join(folder, "colliding")
        source = os.path.join(TOP, "tests", "colliding.rs")
        subprocess.run(["rustc", "--edition=2021", "-O", "-o", colliding, source], check=True)
        for name, is_tree, hostile, ordinary in cases(colliding, count):
            times = []
            for text in (hostile, ordinary):
                path = os.path.join(folder, "case.json" if is_tree else "case.obj")
                with open(path, "w", encoding="ascii") as file:
                    file.write(text)
                words = ["check", path] if is_tree else ["eval", TREE, path]
                time, status = seconds([program] + words, runs)
                times.append(time)
                if status != 0:
                    sys.exit(f"{name}: the program ended with {status}")
            ratio = times[0] / times[1]
            worst = max(worst, ratio)
            print(f"{name:28} {times[0]:.3f} s, ordinary {times[1]:.3f} s, ratio {ratio:.2f}", flush=True)
    print(f"the worst ratio is {worst:.2f}")
    return 1 if worst > MOST else 0


if __name__ == "__main__":
    sys.exit(main())
