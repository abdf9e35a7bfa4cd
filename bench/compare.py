#!/usr/bin/env python3
"""Measures `geonodes eval` beside a plain program without proofs, in one run.

    python3 bench/compare.py [SIDE] [RUNS]

makes a grid of SIDE times SIDE vertices (1,000 by default), as an OBJ of quads, builds `bench/plain.rs`
with `rustc`, and runs both programs in turn (7 times by default) on the grid and on the grid with a bad
last line, which ends a run when all is read. It prints the least times of the processor, their ratios,
and the memory that each program had at its peak, and fails where the two write different bytes. The
proved program is built by `bin/geonodes` where it isn't there yet.
"""

import math
import os
import subprocess
import sys
import tempfile

TOP = os.path.dirname(os.path.dirname(os.path.abspath(__file__)))
TREE = os.path.join(TOP, "examples", "lift.json")
PROVED = os.path.join(TOP, "out", "geonodes")


def write_grid(path, side, last=""):
    """A hilly grid with quads, numbers with six places as modelling tools write them."""
    with open(path, "w", encoding="ascii") as file:
        for y in range(side):
            for x in range(side):
                height = math.sin(x * 0.013) * math.cos(y * 0.017)
                file.write(f"v {x * 0.037:.6f} {y * 0.041:.6f} {height:.6f}\n")
        for y in range(side):
            for x in range(side):
                # The last row and column close the grid to a torus, so that faces are as many as vertices.
                right, below = (x + 1) % side, (y + 1) % side
                corners = (y * side + x, y * side + right, below * side + right, below * side + x)
                file.write("f " + " ".join(str(corner + 1) for corner in corners) + "\n")
        file.write(last)


def run(words, output):
    """The seconds of the processor, the peak of memory in bytes and the status of one run."""
    with open(output, "wb") as out:
        child = subprocess.Popen(words, stdout=out, stderr=subprocess.DEVNULL)
        _, status, usage = os.wait4(child.pid, 0)
        child.returncode = os.waitstatus_to_exitcode(status)
        return usage.ru_utime + usage.ru_stime, usage.ru_maxrss * 1024, child.returncode


def same(first, second):
    """Whether two files have the same bytes."""
    return subprocess.run(["cmp", "-s", first, second]).returncode == 0


def main():
    side = int(sys.argv[1]) if len(sys.argv) > 1 else 1000
    runs = int(sys.argv[2]) if len(sys.argv) > 2 else 7
    subprocess.run([os.path.join(TOP, "bin", "geonodes"), "--version"], check=True, stdout=subprocess.DEVNULL)
    with tempfile.TemporaryDirectory() as folder:
        plain = os.path.join(folder, "plain")
        source = os.path.join(TOP, "bench", "plain.rs")
        subprocess.run(["rustc", "--edition=2021", "-O", "-C", "panic=abort", "-o", plain, source], check=True)
        good, bad = os.path.join(folder, "grid.obj"), os.path.join(folder, "bad.obj")
        write_grid(good, side)
        write_grid(bad, side, "f 1 2\n")
        print(f"{side * side} vertices, as many quads, {os.path.getsize(good) / 1e6:.1f} MB, best of {runs}")
        best, peak = {}, {}
        outputs = {name: os.path.join(folder, name + ".out") for name in ("geonodes", "plain")}
        for _ in range(runs):
            for part, grid, code in (("read", bad, 8), ("whole", good, 0)):
                for name, words in (
                    ("geonodes", [PROVED, "eval", TREE, grid]),
                    ("plain", [plain, grid, "0", "0", "1"]),
                ):
                    seconds, memory, status = run(words, outputs[name])
                    if status != code:
                        sys.exit(f"{name} ended with {status} in place of {code}")
                    best[part, name] = min(seconds, best.get((part, name), seconds))
                    peak[name] = memory
            if not same(outputs["geonodes"], outputs["plain"]):
                sys.exit("the two programs wrote different bytes")
        for name in outputs:
            best["the rest", name] = best["whole", name] - best["read", name]
        for part in ("read", "the rest", "whole"):
            ours, theirs = best[part, "geonodes"], best[part, "plain"]
            print(f"{part:9} geonodes {ours:.3f} s, plain {theirs:.3f} s, ratio {ours / theirs:.2f}")
        for name in outputs:
            print(f"memory    {name} {peak[name] / 1e6:.0f} MB, {peak[name] / side / side:.0f} bytes a vertex")


if __name__ == "__main__":
    main()
