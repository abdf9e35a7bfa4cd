#!/usr/bin/env python3
"""Makes docs/tree.schema.json and the tables in docs/TREES.md from the table of gn_kinds.

With no argument both are written; with --check they are compared with what is there, and the exit
status is 1 where they differ. A schema can't say where links lead, and takes 1.0 for the whole number
1, since to it both are one value; so the program refuses more.
"""
import json
import pathlib
import re
import sys

DOCS = pathlib.Path(__file__).resolve().parent
SOURCES = DOCS.parent / "crates" / "gn_kinds" / "src"
# What the rows have in common, and the rows.
TABLE = ("common.rt", "table.rt")
SCHEMA = DOCS / "tree.schema.json"
PAGE = DOCS / "TREES.md"
START = "<!-- The tables of kinds are made by make-schema.py. -->\n"

ID = {"type": "string", "pattern": "^[a-z0-9_]{1,32}$"}
NUMBER = {
    "type": "string",
    "pattern": r"^[+-]?([0-9]+\.?[0-9]*|\.[0-9]+)([eE][+-]?0*[0-9]{1,2})?$",
}
VALUES = {
    "Truth": {"type": "boolean"},
    "Int": {"type": "integer", "minimum": -(2**31), "maximum": 2**31 - 1},
    "Fixed": {"$ref": "#/$defs/number"},
    "Vector": {
        "type": "array",
        "items": {"$ref": "#/$defs/number"},
        "minItems": 3,
        "maxItems": 3,
    },
}


def items(text):
    """The parts of a list between commas that stand in no bracket."""
    parts, depth, start = [], 0, 0
    for at, c in enumerate(text):
        if c in "([{":
            depth += 1
        elif c in ")]}":
            depth -= 1
        elif c == "," and depth == 0:
            parts.append(text[start:at].strip())
            start = at + 1
    parts.append(text[start:].strip())
    return [part for part in parts if part]


def inside(text, at):
    """What stands in the bracket that opens at that place, and the place behind it."""
    depth = 0
    for end in range(at, len(text)):
        if text[end] in "([{":
            depth += 1
        elif text[end] in ")]}":
            depth -= 1
            if depth == 0:
                return text[at + 1 : end], end + 1
    raise ValueError("a bracket is not closed")


def constants(text):
    """The constants of the table by their names."""
    found = re.findall(r"^(?:pub\(crate\) )?const (\w+): [^=]*= (.*?);$", text, re.M | re.S)
    return {name: " ".join(value.split()) for name, value in found}


def value_of(expression, known):
    return known.get(expression, expression)


def list_of(expression, known):
    """The items of a slice, or of a constant that is one."""
    expression = value_of(expression, known).lstrip("&")
    return items(expression[1:-1])


def setting(expression, known):
    """The key of a setting, whether it is required, and what it must be."""
    name, _, argument = expression.removeprefix("SettingForm::").partition("(")
    argument = argument.removesuffix(")").rstrip(", ")
    if name == "Type":
        kinds = [last(kind).lower() for kind in list_of(argument, known)]
        return "type", True, {"enum": kinds}
    if name == "Op":
        return "op", True, {"enum": [json.loads(op) for op in list_of(argument, known)]}
    if name == "Place":
        places = [last(place).lower() for place in list_of(argument, known)]
        return "place", True, {"enum": places}
    if name == "Value":
        return "value", True, VALUES[last(argument)]
    return {
        "Clamp": ("clamp", True, {"type": "boolean"}),
        "Name": ("name", True, {"$ref": "#/$defs/columnName"}),
        "File": ("file", True, {"$ref": "#/$defs/fileName"}),
        "Group": ("group", True, {"$ref": "#/$defs/id"}),
        "Items": ("items", True, {"$ref": "#/$defs/sockets"}),
        "Nodes": ("nodes", True, {"$ref": "#/$defs/nodes"}),
        "Output": ("output", False, {"$ref": "#/$defs/outputs"}),
    }[name]


def rows(text):
    """The rows of the table, each as its kind and three lists, and whether it is open."""
    known = constants(text)
    for match in re.finditer(r"^    Row \{", text, re.M):
        body, _ = inside(text, match.end() - 1)
        fields = dict(part.split(": ", 1) for part in items(" ".join(body.split())))
        settings = [setting(value_of(s, known), known) for s in list_of(fields["settings"], known)]
        inputs = [value_of(i, known) for i in list_of(fields["inputs"], known)]
        names = [json.loads(re.search(r'"[^"]*"', i).group()) for i in inputs]
        yield json.loads(fields["kind"]), settings, names, fields["open"] == "true"


def node(kind, settings, names, is_open):
    """The form of a node of a kind."""
    required = ["id", "kind"]
    keys = {name: form for name, _, form in settings}
    needed = [name for name, needs, _ in settings if needs]
    chosen = {"type": "object", "properties": keys, "additionalProperties": False}
    if needed:
        chosen["required"] = needed
        required.append("set")
    inputs = {"type": "object", "additionalProperties": {"$ref": "#/$defs/input"}}
    if not is_open:
        inputs["propertyNames"] = {"enum": names} if names else False
    return {
        "type": "object",
        "properties": {
            "id": {"$ref": "#/$defs/id"},
            "kind": {"const": kind},
            "set": chosen,
            "in": inputs,
        },
        "required": required,
        "additionalProperties": False,
    }


def list_form(of):
    return {"type": "array", "items": {"$ref": "#/$defs/" + of}}


def schema(text):
    table = list(rows(text))
    kinds = {row[0]: node(*row) for row in table}
    link = {
        "type": "object",
        "properties": {"from": {"$ref": "#/$defs/id"}, "socket": {"$ref": "#/$defs/id"}},
        "required": ["from", "socket"],
        "additionalProperties": False,
    }
    group = {
        "type": "object",
        "properties": {
            "name": {"$ref": "#/$defs/id"},
            "inputs": {"$ref": "#/$defs/sockets"},
            "outputs": {"$ref": "#/$defs/sockets"},
            "nodes": {"$ref": "#/$defs/nodes"},
            "output": {"$ref": "#/$defs/outputs"},
        },
        "required": ["name", "inputs", "outputs", "nodes"],
        "additionalProperties": False,
    }
    socket = {
        "type": "object",
        "properties": {
            "name": {"$ref": "#/$defs/id"},
            "kind": {"enum": [kind.lower() for kind in VALUES] + ["geometry"]},
        },
        "required": ["name", "kind"],
        "additionalProperties": False,
    }
    return {
        "$schema": "https://json-schema.org/draft/2020-12/schema",
        "title": "A tree of nodes",
        "type": "object",
        "properties": {
            "format": {"const": 1},
            "groups": list_form("group"),
            "nodes": {"$ref": "#/$defs/nodes"},
            "output": {"$ref": "#/$defs/input"},
        },
        "required": ["format", "nodes"],
        "additionalProperties": False,
        "$defs": {
            "id": ID,
            "number": NUMBER,
            "columnName": {
                "type": "string",
                "pattern": "^[!-~]{1,64}$",
                "not": {"const": "position"},
            },
            "fileName": {
                "type": "string",
                "minLength": 1,
                "maxLength": 255,
                "pattern": "^[^\\u0000-\\u001f\\u007f]*$",
            },
            "link": link,
            "input": {
                "anyOf": [*VALUES.values(), {"$ref": "#/$defs/link"}, list_form("link")]
            },
            "outputs": {
                "type": "object",
                "propertyNames": {"$ref": "#/$defs/id"},
                "additionalProperties": {"$ref": "#/$defs/input"},
            },
            "socket": socket,
            "sockets": list_form("socket"),
            "group": group,
            "node": {"oneOf": list(kinds.values())},
            "nodes": list_form("node"),
        },
    }


def last(path):
    return path.rsplit("::", 1)[-1]


def default_text(expression, known):
    """A default as the page shows it; nothing for zero."""
    expression = value_of(expression, known)
    name = last(expression.partition("(")[0])
    if name != "Constant":
        return {"Zero": "", "One": "1"}.get(name, name.lower())
    raws = [int(raw.replace("_", "")) for raw in re.findall(r"Fx\(([0-9_]+)\)", expression)]
    numbers = ["%g" % (raw / 2**32) for raw in raws]
    if numbers:
        return "(" + ", ".join(numbers) + ")" if len(numbers) == 3 else numbers[0]
    return re.search(r"\((\w+)\)\)$", expression).group(1)


def socket_text(expression, known):
    """A socket as the page shows it."""
    form, _, arguments = value_of(expression, known).partition("(")
    name, *more = items(arguments[:-1])
    kind = {"Geometry": "geometry", "Geometries": "geometry, also a list", "Chosen": "`type`"}
    shown = kind.get(last(form)) or last(more.pop(0)).lower()
    if last(form) == "Single":
        shown = "one " + shown
    default = default_text(more[0], known) if more else ""
    return "`%s` %s%s" % (json.loads(name), shown, " = " + default if default else "")


def setting_text(name, needed, form):
    if name == "value":
        return "`value`: " + next(kind.lower() for kind in VALUES if VALUES[kind] == form)
    if "enum" in form:
        return "`%s`: %s" % (name, ", ".join(form["enum"]))
    return "`%s`%s" % (name, "" if needed else "?")


def tables(text):
    """The rows of all kinds as tables, each with the sentence above it in the source."""
    known = constants(text)
    lines = []
    sections = re.split(r"^/// Kinds of (\w[^,.]*).*$", text, flags=re.M)
    for title, body in zip(sections[1::2], sections[2::2]):
        lines += ["", "### " + title.capitalize(), ""]
        lines += ["| Kind | What it does | Settings | Inputs | Outputs |", "| --- | --- | --- | --- | --- |"]
        for match in re.finditer(r"((?:^    // .*\n)+)    Row \{", body, re.M):
            row, _ = inside(body, match.end() - 1)
            fields = dict(part.split(": ", 1) for part in items(" ".join(row.split())))
            settings = [setting(value_of(s, known), known) for s in list_of(fields["settings"], known)]
            shown = ["`%s`" % json.loads(fields["kind"]), " ".join(re.findall("// (.*)", match[1]))]
            shown += ["; ".join(setting_text(*s) for s in settings)]
            for side in "inputs", "outputs":
                shown += ["; ".join(socket_text(x, known) for x in list_of(fields[side], known))]
            lines += ["| " + " | ".join(shown) + " |"]
    return "\n".join(lines) + "\n"


def main():
    table = "".join((SOURCES / name).read_text() for name in TABLE)
    made = {
        SCHEMA: json.dumps(schema(table), indent=1) + "\n",
        PAGE: PAGE.read_text().partition(START)[0] + START + tables(table),
    }
    for path, text in made.items():
        if sys.argv[1:] != ["--check"]:
            path.write_text(text)
        elif not path.exists() or path.read_text() != text:
            sys.exit("docs/%s is not the table's: run docs/make-schema.py" % path.name)


if __name__ == "__main__":
    main()
