"""What a tree is, as a plain reading of JSON: its form (F1) and the rules F2 to F7.

`verdict(text)` gives `("ok",)`, `("text",)` where the bytes are no JSON, or `("form", rule, pointer)`.
It shares nothing with the program: the table of kinds below is written by hand, and each rule is
looked up over the whole tree, with no regard to speed.
"""

import json
import re

# ---- the table of kinds: settings; inputs; outputs. T, I, X, V and G are the kinds of sockets, G* takes
# a list of geometry, and A is the kind that the setting `type` names.

KINDS = """
float | value:X | | value X
integer | value:I | | value I
boolean | value:T | | value T
vector | value:V | | value V
position | | | position V
index | | | index I
id | | | id I
normal | | | normal V
named_attribute | name type:TIXV | | value A, exists T
edge_vertices | | | index_1 I, index_2 I, position_1 V, position_2 V
vertex_neighbors | | | vertices I, faces I
math | op:add,subtract,multiply,divide,modulo,minimum,maximum,absolute,sign,floor,ceil,fraction,sqrt,less_than,greater_than | a X, b X | value X
integer_math | op:add,subtract,multiply,divide,modulo,minimum,maximum,absolute,sign,negate | a I, b I | value I
vector_math | op:add,subtract,multiply,divide,minimum,maximum,absolute,cross,scale,normalize,dot,length,distance | a V, b V, scale X | vector V, value X
boolean_math | op:and,or,xor,nand,nor,not | a T, b T | value T
compare | type:IX op:less,less_equal,greater,greater_equal,equal,not_equal | a A, b A | result T
clamp | | value X, min X, max X | value X
map_range | clamp | value X, from_min X, from_max X, to_min X, to_max X | value X
mix | type:XV | factor X, a A, b A | value A
float_to_integer | op:round,floor,ceil,truncate | value X | value I
combine_xyz | | x X, y X, z X | vector V
separate_xyz | | vector V | x X, y X, z X
random_value | type:TIXV | min A, max A, probability X, id I, seed I | value A
switch | type:TIXVG | switch T, false A, true A | output A
accumulate_field | type:IXV place:pefcki | value A, group I | leading A, trailing A, total A
evaluate_at_index | type:TIXV place:pefcki | value A, index I | value A
evaluate_on_domain | type:TIXV place:pefcki | value A | value A
sample_index | type:TIXV place:pefcki clamp | geometry G, value A, index I | value A
sample_nearest | place:pefcki | geometry G, position V | index I
capture_attribute | type:TIXV place:pefcki | geometry G, value A | geometry G, attribute A
store_named_attribute | name type:TIXV place:pefcki | geometry G, selection T, value A | geometry G
remove_named_attribute | name | geometry G | geometry G
attribute_statistic | place:pefcki | geometry G, selection T, attribute X | mean X, sum X, min X, max X, range X
domain_size | | geometry G | points I, edges I, faces I, corners I, cloud I, instances I
set_position | | geometry G, selection T, position V, offset V | geometry G
set_id | | geometry G, selection T, id I | geometry G
join_geometry | | geometry G* | geometry G
transform_geometry | | geometry G, translation V, row_x V, row_y V, row_z V | geometry G
delete_geometry | place:pefki | geometry G, selection T | geometry G
separate_geometry | place:pefki | geometry G, selection T | selection G, inverted G
separate_components | | geometry G | mesh G, cloud G, instances G
bounding_box | | geometry G | geometry G, min V, max V
flip_faces | | geometry G, selection T | geometry G
mesh_to_points | place:pefc | geometry G, selection T, position V | geometry G
points_to_vertices | | geometry G, selection T | geometry G
duplicate_elements | | geometry G, selection T, amount I | geometry G, duplicate_index I
mesh_line | | count I, start V, offset V | geometry G
grid | | size_x X, size_y X, vertices_x I, vertices_y I | geometry G
cube | | size V | geometry G
points | | count I, position V | geometry G
import_obj | file | | geometry G
repeat | items nodes output? | iterations I |
geometry_to_instance | | geometry G* | geometry G
instance_on_points | | points G, selection T, instance G, scale V | geometry G
realize_instances | | geometry G | geometry G
translate_instances | | geometry G, selection T, translation V | geometry G
scale_instances | | geometry G, selection T, scale V | geometry G
instances_to_points | | geometry G, selection T, position V | geometry G
group | group | |
"""

SOCKET_KINDS = {"T": "truth", "I": "int", "X": "fixed", "V": "vector", "G": "geometry"}
PLACES = dict(zip("pefcki", ["point", "edge", "face", "corner", "cloud", "instance"]))
RESERVED = {"input", "output", "iteration", "iterations"}


class Kind:
    """A row of the table."""

    def __init__(self, line):
        name, settings, inputs, outputs = (part.strip() for part in line.split("|"))
        self.name = name
        self.settings = {}
        self.optional = set()
        for word in settings.split():
            key, _, form = word.partition(":")
            if key.endswith("?"):
                key = key[:-1]
                self.optional.add(key)
            self.settings[key] = form
        self.inputs = dict(pair.split() for pair in inputs.split(",") if pair.strip())
        self.outputs = dict(pair.split() for pair in outputs.split(",") if pair.strip())

    def is_open(self):
        """Whether further sockets are declared by a group or by a zone's items."""
        return self.name in ("repeat", "group")


TABLE = {kind.name: kind for kind in map(Kind, KINDS.strip().splitlines())}

# ---- JSON as the program's reader takes it


class Float:
    """A number that is no whole number of 64 bits."""


def whole_number(text):
    number = int(text)
    if text == "-0" or not -(2**63) <= number < 2**64:
        return any_number(text)
    return number


def any_number(text):
    if float(text) in (float("inf"), float("-inf")):
        raise ValueError("the number is too great")
    return Float()


def no_constant(text):
    raise ValueError(text)


def depth(value):
    inner = value.values() if isinstance(value, dict) else value if isinstance(value, list) else None
    return 0 if inner is None else 1 + max(map(depth, inner), default=0)


def parse(text):
    """The value, or None where the bytes are no JSON."""
    try:
        value = json.loads(
            text.decode(), parse_int=whole_number, parse_float=any_number, parse_constant=no_constant
        )
    except (ValueError, RecursionError):
        return None
    return value if depth(value) <= 127 else None


# ---- F1: a checker gives the pointer to the first value that is not of its form, or None

ID = re.compile(r"[a-z0-9_]{1,32}\Z", re.ASCII)
NUMBER = re.compile(r"[+-]?(?:[0-9]+\.?[0-9]*|\.[0-9]+)(?:[eE]([+-]?[0-9]+))?\Z", re.ASCII)


def by_bytes(key):
    return key.encode("utf-8", "surrogatepass")


def only(test):
    return lambda value: None if test(value) else []


def is_whole(value):
    return isinstance(value, int) and not isinstance(value, bool)


def is_number_text(value):
    found = NUMBER.match(value) if isinstance(value, str) else None
    return bool(found) and (found[1] is None or -99 <= int(found[1]) <= 99)


def is_int(value):
    return is_whole(value) and -(2**31) <= value < 2**31


def is_vector(value):
    return isinstance(value, list) and len(value) == 3 and all(map(is_number_text, value))


CONSTANTS = {"T": lambda v: isinstance(v, bool), "I": is_int, "X": is_number_text, "V": is_vector}


def first_in(members):
    for step, found in members:
        if found is not None:
            return [step] + found
    return None


def in_object(value, required, optional):
    """An object with just these keys, each of its form."""
    if not isinstance(value, dict):
        return []
    forms = {**required, **optional}
    if any(key not in forms for key in value) or any(key not in value for key in required):
        return []
    return first_in((key, forms[key](value[key])) for key in sorted(value, key=by_bytes))


def in_array(form):
    def check(value):
        if not isinstance(value, list):
            return []
        return first_in((i, form(item)) for i, item in enumerate(value))

    return check


an_id = only(lambda v: isinstance(v, str) and ID.match(v))


def a_link(value):
    return in_object(value, {"from": an_id, "socket": an_id}, {})


def an_input(value):
    if isinstance(value, dict):
        return a_link(value)
    if isinstance(value, list) and (not value or any(isinstance(v, dict) for v in value)):
        return in_array(a_link)(value)
    return None if any(test(value) for test in CONSTANTS.values()) else []


def inputs_by_id(value):
    if not isinstance(value, dict) or any(not ID.match(key) for key in value):
        return []
    return first_in((key, an_input(value[key])) for key in sorted(value, key=by_bytes))


def a_socket(value):
    kind = only(lambda v: isinstance(v, str) and v in SOCKET_KINDS.values())
    return in_object(value, {"name": an_id, "kind": kind}, {})


def bytes_of(value):
    return value.encode("utf-8", "surrogatepass") if isinstance(value, str) else b""


def is_column(value):
    return 1 <= len(bytes_of(value)) <= 64 and all(33 <= b <= 126 for b in bytes_of(value)) and value != "position"


def is_file(value):
    return 1 <= len(bytes_of(value)) <= 255 and all(b >= 32 and b != 127 for b in bytes_of(value))


def one_of(words):
    return only(lambda v: isinstance(v, str) and v in words)


def setting_form(key, form):
    if key == "value":
        return only(CONSTANTS[form])
    if key == "type":
        return one_of([SOCKET_KINDS[letter] for letter in form])
    if key == "op":
        return one_of(form.split(","))
    if key == "place":
        return one_of([PLACES[letter] for letter in form])
    return {
        "clamp": only(lambda v: isinstance(v, bool)),
        "name": only(is_column),
        "file": only(is_file),
        "group": an_id,
        "items": in_array(a_socket),
        "nodes": in_array(a_node),
        "output": inputs_by_id,
    }[key]


def kind_of(value):
    name = value.get("kind")
    return TABLE.get(name) if isinstance(name, str) else None


def a_node(value):
    if not isinstance(value, dict):
        return []
    kind = kind_of(value)
    if kind is None:
        settings = only(lambda v: isinstance(v, dict))
    else:
        forms = {key: setting_form(key, form) for key, form in kind.settings.items()}
        must = {key: form for key, form in forms.items() if key not in kind.optional}
        may = {key: form for key, form in forms.items() if key in kind.optional}
        settings = lambda v: in_object(v, must, may)

    def inputs(v):
        if not isinstance(v, dict):
            return []
        if kind is not None and not kind.is_open() and any(key not in kind.inputs for key in v):
            return []
        return first_in((key, an_input(v[key])) for key in sorted(v, key=by_bytes))

    required = {"id": an_id, "kind": only(lambda v: isinstance(v, str) and v in TABLE)}
    optional = {"in": inputs, "set": settings}
    if kind is not None and any(key not in kind.optional for key in kind.settings):
        required["set"] = optional.pop("set")
    return in_object(value, required, optional)


def a_group(value):
    sockets = in_array(a_socket)
    required = {"name": an_id, "inputs": sockets, "outputs": sockets, "nodes": in_array(a_node)}
    return in_object(value, required, {"output": inputs_by_id})


def a_tree(value):
    required = {"format": only(lambda v: is_whole(v) and v == 1), "nodes": in_array(a_node)}
    return in_object(value, required, {"groups": in_array(a_group), "output": an_input})


# ---- F2 to F7


def first_named(items, key, name):
    return next((i for i, item in enumerate(items) if item[key] == name), None)


def letter_of(kind):
    return next(letter for letter, name in SOCKET_KINDS.items() if name == kind)


class Rules:
    """All (rule, pointer) pairs that a tree of its form breaks."""

    def __init__(self, tree):
        self.groups = tree.get("groups", [])
        self.broken = []
        self.twice(self.groups, "name", ["groups"])
        for i, group in enumerate(self.groups):
            here = ["groups", i]
            self.twice(group["inputs"], "name", here + ["inputs"])
            self.twice(group["outputs"], "name", here + ["outputs"])
            entries = self.declared(group["inputs"])
            self.in_list(group["nodes"], entries, i, here + ["nodes"])
            self.given_out(group, group["outputs"], entries, here)
        above = len(self.groups)
        self.in_list(tree["nodes"], {"geometry": "G"}, above, ["nodes"])
        if "output" in tree:
            scope = (tree["nodes"], {"geometry": "G"})
            self.in_input(tree["output"], "G", scope, ["output"])
        if self.count(tree["nodes"], above) > 16384:
            self.broken.append((7, ["nodes"]))

    def declared(self, sockets):
        first = {}
        for socket in sockets:
            first.setdefault(socket["name"], letter_of(socket["kind"]))
        return first

    def twice(self, items, key, here):
        seen = set()
        for i, item in enumerate(items):
            if item[key] in seen or item[key] in RESERVED:
                self.broken.append((2, here + [i]))
            seen.add(item[key])

    def group_of(self, node):
        return first_named(self.groups, "name", node["set"]["group"])

    def sockets(self, node, inputs):
        kind = TABLE[node["kind"]]
        settings = node.get("set", {})
        chosen = letter_of(settings["type"]) if "type" in settings else None
        found = {
            name: chosen if letter == "A" else letter
            for name, letter in (kind.inputs if inputs else kind.outputs).items()
        }
        further = settings.get("items", [])
        if node["kind"] == "group":
            number = self.group_of(node)
            further = [] if number is None else self.groups[number]["inputs" if inputs else "outputs"]
        for name, letter in self.declared(further).items():
            found.setdefault(name, letter)
        return found

    def source(self, link, scope):
        nodes, entries = scope
        if link["from"] == "input":
            return entries.get(link["socket"])
        number = first_named(nodes, "id", link["from"])
        return None if number is None else self.sockets(nodes[number], False).get(link["socket"])

    def in_input(self, value, letter, scope, here):
        """An input for a socket of that kind; None where no socket is declared."""
        links = [value] if isinstance(value, dict) else []
        many = isinstance(value, list) and (not value or any(isinstance(v, dict) for v in value))
        if many:
            links = value
        for i, link in enumerate(links):
            if self.source(link, scope) is None:
                self.broken.append((3, here + ([i] if many else [])))
        if letter is None:
            return
        sources = [self.source(link, scope) for link in links]
        clash = any(s is not None and (s == "G") != (letter[0] == "G") for s in sources)
        constant = not links and not many and not CONSTANTS.get(letter, lambda v: False)(value)
        if clash or constant or many and letter != "G*":
            self.broken.append((4, here))

    def named_inputs(self, inputs, sockets, scope, here):
        for key, value in inputs.items():
            if key not in sockets:
                self.broken.append((3, here + [key]))
            self.in_input(value, sockets.get(key), scope, here + [key])

    def given_out(self, holder, outputs, entries, here):
        scope = (holder["nodes"], entries)
        self.named_inputs(holder.get("output", {}), self.declared(outputs), scope, here + ["output"])

    def in_list(self, nodes, entries, above, here):
        self.twice(nodes, "id", here)
        for i, node in enumerate(nodes):
            self.named_inputs(
                node.get("in", {}), self.sockets(node, True), (nodes, entries), here + [i, "in"]
            )
            settings = node.get("set", {})
            if node["kind"] == "group":
                number = self.group_of(node)
                if number is None or number >= above:
                    self.broken.append((3, here + [i, "set", "group"]))
            if node["kind"] == "repeat":
                self.in_zone(settings, above, here + [i, "set"])
            if self.reaches(nodes, i):
                self.broken.append((5, here + [i]))
            if self.height(node, above) > 2 and node["kind"] == "repeat":
                self.broken.append((6, here + [i]))

    def in_zone(self, zone, above, here):
        self.twice(zone["items"], "name", here + ["items"])
        entries = {"iteration": "I"}
        for name, letter in self.declared(zone["items"]).items():
            entries.setdefault(name, letter)
        self.in_list(zone["nodes"], entries, above, here + ["nodes"])
        self.given_out(zone, zone["items"], entries, here)

    def leads(self, nodes, i):
        for value in nodes[i].get("in", {}).values():
            for link in value if isinstance(value, list) else [value]:
                if isinstance(link, dict):
                    number = first_named(nodes, "id", link["from"])
                    if number is not None and link["from"] != "input":
                        yield number

    def reaches(self, nodes, start):
        seen, todo = set(), list(self.leads(nodes, start))
        while todo:
            i = todo.pop()
            if i == start:
                return True
            if i not in seen:
                seen.add(i)
                todo += self.leads(nodes, i)
        return False

    def inner(self, node, above):
        """The nodes that a group node or a zone holds, with how many groups stand above them."""
        if node["kind"] == "repeat":
            return node["set"]["nodes"], above
        if node["kind"] == "group":
            number = self.group_of(node)
            if number is not None and number < above:
                return self.groups[number]["nodes"], number
        return [], above

    def height(self, node, above):
        nodes, inner = self.inner(node, above)
        height = max((self.height(n, inner) for n in nodes), default=0)
        return height + 1 if node["kind"] == "repeat" else height

    def count(self, nodes, above):
        return sum(1 + self.count(*self.inner(node, above)) for node in nodes)


def order(pointer):
    return [(0, step, b"") if isinstance(step, int) else (1, 0, by_bytes(step)) for step in pointer]


def pointer_text(pointer):
    steps = (str(step).replace("~", "~0").replace("/", "~1") for step in pointer)
    return "/" + "/".join(steps)


def verdict(text):
    value = parse(text)
    if value is None:
        return ("text",)
    misfit = a_tree(value)
    if misfit is not None:
        return ("form", 1, pointer_text(misfit))
    broken = Rules(value).broken
    if not broken:
        return ("ok",)
    rule, pointer = min(broken, key=lambda pair: (pair[0], order(pair[1])))
    return ("form", rule, pointer_text(pointer))
