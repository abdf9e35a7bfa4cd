#!/usr/bin/env python3
"""Runs each tree that examples/README.md lists, and compares with what stands there; then words that come to other ends.

    python3 tests/examples.py
"""

import os
import re
import subprocess
import sys

TOP = os.path.dirname(os.path.dirname(os.path.abspath(__file__)))
EXAMPLES = os.path.join(TOP, "examples")
PROGRAM = os.path.join(TOP, "bin", "geonodes")
TIMES = {"three": 3}
# Trees that are well formed and not evaluated yet.
WAITING = ["waves.json"]
# Words with the status and the line that they come to, which must stand on standard error.
OTHER_ENDS = [
    ([], 2, b"usage: more words expected"),
    (["eval", "lift.json"], 2, b"usage: more words expected"),
    (["eval", "lift.json", "triangle.obj", "--fast"], 2, b"usage: unexpected --fast"),
    ([b"foo", b"\xff"], 2, b"usage: unexpected foo"),
    ([b"--help", b"\xff"], 2, b"usage: unexpected \xff"),
    ([b"x" * 5000 + b"\xff"], 2, b"usage: unexpected " + b"x" * 5000 + b"\xff"),
    (["check", "no such tree"], 3, b"absent: no such tree"),
    (["eval", "lift.json", "no such mesh"], 3, b"absent: no such mesh"),
    (["check", "."], 4, b"read fault: ."),
    (["eval", os.path.join("refused", "f1.json"), "."], 7, b"tree form: F1 at /nodes/0/set/value"),
]


def rows(page):
    """The cells of each row of a table whose first cell names a tree."""
    for line in page.splitlines():
        cells = [cell.strip() for cell in line.strip().strip("|").split("|")]
        if line.startswith("| `") and len(cells) == 3:
            yield cells[0].strip("`"), cells[1], cells[2]


def lines_of(cell):
    """The lines that a cell shows, as in: three lines `v 0 0 0`, `f 1 2 3`."""
    found = []
    for times, line in re.findall(r"(?:(\w+) lines )?`([^`]*)`", cell):
        found += [line + "\n"] * TIMES.get(times, 1)
    return "".join(found).encode()


def run(words, output=subprocess.PIPE):
    done = subprocess.run([PROGRAM, *words], cwd=EXAMPLES, stdout=output, stderr=subprocess.PIPE, timeout=7200)
    return done.returncode, done.stdout, done.stderr


def compare(words, want, output=subprocess.PIPE):
    got = run(words, output)
    if got != want:
        print(f"{words}: expected {want}, got {got}")
    return got == want


def compare_full():
    """A run whose output takes no byte."""
    with open("/dev/full", "wb") as full:
        line = b"geonodes: write fault after 0 bytes\n"
        return compare(["eval", "lift.json", "triangle.obj"], (5, None, line), full)


def main():
    run(["--version"])
    with open(os.path.join(EXAMPLES, "README.md"), encoding="utf-8") as file:
        good, refused = file.read().split("## Trees that are refused")
    trees = list(rows(good))
    results = []
    for tree, _, output in trees:
        results.append(compare(("eval", tree, "triangle.obj"), (0, lines_of(output), b"")))
    for tree in [tree for tree, _, _ in trees] + WAITING:
        results.append(compare(("check", tree), (0, b"ok\n", b"")))
    for tree in WAITING:
        results.append(compare(("eval", tree, "triangle.obj"), (11, b"", b"geonodes: not built\n")))
    for tree, line, _ in rows(refused):
        status = 6 if tree == "text.json" else 7
        want = (status, b"", f"geonodes: {line.strip('`')}\n".encode())
        path = os.path.join("refused", tree)
        results += [compare(("check", path), want), compare(("eval", path, "triangle.obj"), want)]
    for words, status, line in OTHER_ENDS:
        results.append(compare(words, (status, b"", b"geonodes: " + line + b"\n")))
    results.append(compare_full())
    print(f"{results.count(True)} examples as stated, {results.count(False)} not")
    return 0 if all(results) else 1


if __name__ == "__main__":
    sys.exit(main())
