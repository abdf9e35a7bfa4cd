#!/usr/bin/env python3
"""Compares `geonodes eval` with another reading of OBJ on random texts.

    python3 tests/random_obj.py [TEXTS] [SEED]

makes TEXTS texts (1,000 by default), well formed or nearly so: numbers in every spelling, references
from both ends, joined lines, comments and stray bytes. For each it works out in plain Python, with
exact fractions, what a tree that moves nothing must write, or which line breaks which rule. It fails
at the first text for which the program's status, output or message is another. The proved program is
built by `bin/geonodes` where it isn't there yet.
"""

import collections
import os
import random
import re
import subprocess
import sys
import tempfile
from fractions import Fraction

TOP = os.path.dirname(os.path.dirname(os.path.abspath(__file__)))
PROVED = os.path.join(TOP, "out", "geonodes")
TREE = """{"format": 1,
 "nodes": [{"id": "still", "kind": "set_position",
            "in": {"geometry": {"from": "input", "socket": "geometry"}, "offset": ["0", "0", "0"]}}],
 "output": {"from": "still", "socket": "geometry"}}
"""

# ---- numbers: a raw number n stands for n / 2^32

NUMBER = re.compile(rb"([+-]?)([0-9]*)\.?([0-9]*)(?:[eE]([+-]?[0-9]+))?\Z")


def nearest(number):
    """The whole number nearest to a fraction that is not below 0, ties to even."""
    below, rest = divmod(number.numerator, number.denominator)
    twice = 2 * rest - number.denominator
    return below + (twice > 0 or twice == 0 and below % 2)


def raw_number(word):
    """The raw number that a word spells, or None."""
    found = NUMBER.match(word)
    if not found or not found[2] + found[3]:
        return None
    exponent = int(found[4] or b"0")
    if not -99 <= exponent <= 99:
        return None
    exact = Fraction(int(found[2] + found[3]), 10 ** len(found[3])) * Fraction(10) ** exponent
    # Eighteen digits behind the point count.
    size = nearest(Fraction(int(exact * 10**18) * 2**32, 10**18))
    return max(-(2**63), min(2**63 - 1, -size if found[1] == b"-" else size))


def spelled(raw):
    """A raw number as it is written, with at most ten digits behind the point."""
    whole, part = divmod(nearest(Fraction(abs(raw) * 10**10, 2**32)), 10**10)
    sign = "-" if raw < 0 and (whole or part) else ""
    return sign + f"{whole}.{part:010}".rstrip("0").rstrip(".")


# ---- lines

BLANKS = b" \t\r"


def numbered_lines(text):
    """The lines with the number of the first physical line of each, comments cut off."""
    physical = text.removeprefix(b"\xef\xbb\xbf").split(b"\n")
    line, first = b"", 1
    for number, piece in enumerate(physical, 1):
        piece = re.split(rb"(?:^|(?<=[ \t\r]))#", piece, maxsplit=1)[0]
        kept = piece.rstrip(BLANKS)
        if kept.endswith(b"\\"):
            line += kept[:-1] + b" "
            continue
        yield first, line + piece
        line, first = b"", number + 1
    yield first, line


class BadLine(Exception):
    """A line breaks a rule."""


# ---- the mesh of a text

REFERENCE = re.compile(rb"([+-]?)([0-9]+)\Z")


def reference(word):
    """The number before the first slash, or None where it is none or 0."""
    found = REFERENCE.match(word.split(b"/")[0])
    number = int(found[2]) if found else 0
    return (-number if found[1] == b"-" else number) if number else None


class Mesh:
    """Vertices as raw numbers, faces as lists of vertices, and edges by the order in which they are met."""

    def __init__(self):
        self.vertices, self.faces, self.edges = [], [], {}

    def add_edges(self, pairs, is_of_face):
        for one, other in pairs:
            if one != other:
                edge = (min(one, other), max(one, other))
                self.edges[edge] = self.edges.get(edge, False) or is_of_face

    def named(self, words, least):
        """The vertices that references name; `least` is the least number of them."""
        if len(words) < least:
            raise BadLine("O2")
        numbers = [reference(word) for word in words]
        if None in numbers:
            raise BadLine("O3")
        count = len(self.vertices)
        places = [number - 1 if number > 0 else count + number for number in numbers]
        if not all(0 <= place < count for place in places):
            raise BadLine("O4")
        return places

    def add_line(self, words):
        kind, words = words[0], words[1:]
        if kind == b"v":
            numbers = [raw_number(word) for word in words[:3]]
            if len(numbers) < 3 or None in numbers:
                raise BadLine("O1")
            self.vertices.append(numbers)
        elif kind == b"f":
            corners = self.named(words, 3)
            if len(set(corners)) == len(corners):
                self.faces.append(corners)
                self.add_edges(zip(corners, corners[1:] + corners[:1]), True)
        elif kind == b"l":
            places = self.named(words, 2)
            self.add_edges(zip(places, places[1:]), False)
        elif kind == b"p":
            self.named(words, 1)

    def text(self):
        lines = ["v " + " ".join(map(spelled, vertex)) for vertex in self.vertices]
        lines += [f"l {one + 1} {other + 1}" for (one, other), is_of_face in self.edges.items() if not is_of_face]
        lines += ["f " + " ".join(str(corner + 1) for corner in face) for face in self.faces]
        return "".join(line + "\n" for line in lines)


def wanted(text):
    """The status, the output and the message for an input."""
    mesh = Mesh()
    for number, line in numbered_lines(text):
        words = re.findall(rb"[^ \t\r]+", line)
        if not words:
            continue
        try:
            mesh.add_line(words)
        except BadLine as rule:
            return 8, "", f"geonodes: obj text: line {number}: {rule}\n"
    return 0, mesh.text(), ""


# ---- random texts

NUMBERS = """.5 5. -.25 +3 -0 00012.500 1E+2 1e99 -1e99 1e-99 2147483647.9999999999 -2147483648
0.00000000005 0.00000000015 0.0000000001164153218269 0.00000000011641532182693481445""".split()
NO_NUMBERS = ["1e100", ".", "e1", "1e", "--1", "0x1", "1_0", "nan", "1.2.3", "1e+-1", "1e-100", "\u0663"]
NO_REFERENCES = ["-", "+", "a", "/1", "-0", "0", "1.0", "1e0", "+-1", "99999999999999999999"]
OTHER_LINES = ["", "#", "# c", "vn 1 2 3", "vt 1", "o a b", "F 1 2 3", "v# 1 2 3", "fx 1", "\\", "# a \\", "\t#x"]


class Maker:
    """Makes texts from one source of random numbers."""

    def __init__(self, seed):
        self.random = random.Random(seed)

    def chance(self, part):
        return self.random.random() < part

    def blank(self):
        return self.random.choice([" ", " ", " ", "  ", "\t", "\r", " \t"])

    def number(self):
        if self.chance(0.005):
            return self.random.choice(NO_NUMBERS)
        if self.chance(0.2):
            return self.random.choice(NUMBERS)
        if self.chance(0.2):
            return f"{self.random.randint(-999, 999)}e{self.random.randint(-25, 12)}"
        return f"{self.random.uniform(-20, 20):.{self.random.randint(0, 20)}f}"

    def reference(self, count):
        if self.chance(0.005):
            return self.random.choice(NO_REFERENCES)
        number = self.random.randint(1, max(1, count + self.chance(0.01)))
        sign = self.random.choice(["", "", "+", "-"])
        zeros = "00" if self.chance(0.05) else ""
        tail = self.random.choice(["/", "//", "/1", "/1/2", "//x", "/#a"]) if self.chance(0.2) else ""
        return f"{sign}{zeros}{number}{tail}"

    def line(self, count):
        others = 1 if count > 2 else 0.02
        kind = self.random.choices(["v", "f", "l", "p", None], [8, 6 * others, 3 * others, others, 2])[0]
        if kind is None:
            return self.random.choice(OTHER_LINES)
        least = {"v": 3, "f": 3, "l": 2, "p": 1}[kind]
        words = self.random.randint(0 if self.chance(0.03) else least, least + 2)
        word = self.number if kind == "v" else lambda: self.reference(count)
        return kind + "".join(self.blank() + word() for _ in range(words))

    def dressed(self, line):
        """The line with blanks, a comment or a break in it, now and then."""
        if self.chance(0.1):
            line = self.blank() + line
        if self.chance(0.1):
            line += self.random.choice([" # c", " #", "#x", "\t# \\", " \\x", " "])
        if self.chance(0.08):
            place = self.random.randint(0, len(line))
            broken = self.random.choice(["\\\n", "\\ \n", "\\\r\n", " \\\n", "\\\\\n", "\\\n\n", "# x\\\n"])
            line = line[:place] + broken + line[place:]
        return line

    def text(self):
        lines, count = [], 0
        for _ in range(self.random.randint(0, 14)):
            line = self.line(count)
            count += line.startswith("v") and not line.startswith("v#")
            lines.append(self.dressed(line))
        end = self.random.choice(["\n", "", "\n\n", "\\", "\\\n"])
        text = (self.random.choice(["\n", "\n", "\r\n"]).join(lines) + end).encode()
        if self.chance(0.05) and text:
            place = self.random.randrange(len(text))
            text = text[:place] + bytes([self.random.randrange(256)]) + text[place + 1 :]
        return (b"\xef\xbb\xbf" if self.chance(0.1) else b"") + text


def main():
    texts = int(sys.argv[1]) if len(sys.argv) > 1 else 1000
    seed = int(sys.argv[2]) if len(sys.argv) > 2 else 0
    subprocess.run([os.path.join(TOP, "bin", "geonodes"), "--version"], check=True, stdout=subprocess.DEVNULL)
    maker, ends = Maker(seed), collections.Counter()
    with tempfile.TemporaryDirectory() as folder:
        with open(os.path.join(folder, "tree.json"), "w", encoding="ascii") as file:
            file.write(TREE)
        for _ in range(texts):
            text = maker.text()
            with open(os.path.join(folder, "input.obj"), "wb") as file:
                file.write(text)
            ran = subprocess.run([PROVED, "eval", "tree.json", "input.obj"], cwd=folder, capture_output=True)
            got = ran.returncode, ran.stdout.decode(), ran.stderr.decode()
            if got != wanted(text):
                sys.exit(f"{text!r}\nwanted {wanted(text)}\ngot    {got}")
            ends[got[2].rsplit(" ", 1)[-1].strip() or "done"] += 1
    print(f"{texts} texts read alike: " + ", ".join(f"{end} {count}" for end, count in sorted(ends.items())))


if __name__ == "__main__":
    main()
