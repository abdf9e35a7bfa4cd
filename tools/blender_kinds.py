"""Which node of Blender 3.4 is which kind of node of geonodes.

Nothing here needs Blender, so that tests/export_table.py compares it with the table of kinds. Sockets are named as
Blender's Python names them; one that a node doesn't use for its type or operation is disabled there, so a name means
the enabled socket of that identifier, or else the enabled one that the window shows under that name.
"""

from typing import NamedTuple

# The kinds of sockets by Blender's names.
VALUES = {"VALUE": "fixed", "INT": "int", "BOOLEAN": "truth", "VECTOR": "vector", "GEOMETRY": "geometry"}
TYPES = {
    "FLOAT": "fixed",
    "INT": "int",
    "FLOAT_VECTOR": "vector",
    "VECTOR": "vector",
    "BOOLEAN": "truth",
    "GEOMETRY": "geometry",
}
# POINT is a vertex or a point of a cloud, by the geometry that it is meant of.
PLACES = {"POINT": "point", "EDGE": "edge", "FACE": "face", "CORNER": "corner", "INSTANCE": "instance"}

MATH = {
    "ADD": "add",
    "SUBTRACT": "subtract",
    "MULTIPLY": "multiply",
    "DIVIDE": "divide",
    "MODULO": "modulo",
    "MINIMUM": "minimum",
    "MAXIMUM": "maximum",
    "ABSOLUTE": "absolute",
    "SIGN": "sign",
    "FLOOR": "floor",
    "CEIL": "ceil",
    "FRACT": "fraction",
    "SQRT": "sqrt",
    "LESS_THAN": "less_than",
    "GREATER_THAN": "greater_than",
}
VECTOR_MATH = {
    "ADD": "add",
    "SUBTRACT": "subtract",
    "MULTIPLY": "multiply",
    "DIVIDE": "divide",
    "MINIMUM": "minimum",
    "MAXIMUM": "maximum",
    "ABSOLUTE": "absolute",
    "CROSS_PRODUCT": "cross",
    "SCALE": "scale",
    "NORMALIZE": "normalize",
    "DOT_PRODUCT": "dot",
    "LENGTH": "length",
    "DISTANCE": "distance",
}
BOOLEAN_MATH = {"AND": "and", "OR": "or", "XOR": "xor", "NAND": "nand", "NOR": "nor", "NOT": "not"}
COMPARE = {
    "LESS_THAN": "less",
    "LESS_EQUAL": "less_equal",
    "GREATER_THAN": "greater",
    "GREATER_EQUAL": "greater_equal",
    "EQUAL": "equal",
    "NOT_EQUAL": "not_equal",
}
ROUNDING = {"ROUND": "round", "FLOOR": "floor", "CEILING": "ceil", "TRUNCATE": "truncate"}
MESH_PLACES = {"VERTICES": "point", "EDGES": "edge", "FACES": "face", "CORNERS": "corner"}


class Kind(NamedTuple):
    """What a node of Blender is here."""

    name: str
    # Our sockets, each with its socket of Blender.
    inputs: dict[str, str] = {}
    outputs: dict[str, str] = {}
    # A property of the node, and what its values are here.
    type: tuple[str, dict[str, str]] | None = None
    op: tuple[str, dict[str, str]] | None = None
    place: tuple[str, dict[str, str]] | None = None
    clamp: str | None = None
    # The property with the constant that the node gives.
    value: str | None = None
    # The input with the name of a column.
    column: str | None = None
    # The input with the geometry whose elements a place is of, or whose elements the fields are read at.
    geometry: str | None = None
    # Properties that have to have one value, with what there is instead.
    fixed: dict[str, tuple[object, str]] = {}
    # Inputs that are none of ours and have to have one constant, with what there is instead.
    still: dict[str, tuple[object, str]] = {}
    # Inputs that are none of ours and change nothing that a tree can tell.
    dropped: tuple[str, ...] = ()
    # Where Blender goes into the geometry of instances.
    goes_into_instances: bool = False
    # Which differences of docs/BLENDER.md a node of this kind meets.
    notes: tuple[str, ...] = ()


def chosen(property: str, values: dict[str, str], keys: str) -> tuple[str, dict[str, str]]:
    """A property of which only these values are taken."""
    return property, {key: values[key] for key in keys.split()}


NO_RADIUS = ("Radius",)
ATTRIBUTE = chosen("data_type", TYPES, "FLOAT INT FLOAT_VECTOR BOOLEAN")
ALL_PLACES = ("domain", PLACES)
REALIZE = "Realize Instances in front of it"

KINDS = {
    "ShaderNodeValue": Kind("float", outputs={"value": "Value"}, value=""),
    "FunctionNodeInputInt": Kind("integer", outputs={"value": "Integer"}, value="integer"),
    "FunctionNodeInputBool": Kind("boolean", outputs={"value": "Boolean"}, value="boolean"),
    "FunctionNodeInputVector": Kind("vector", outputs={"value": "Vector"}, value="vector"),
    "GeometryNodeInputPosition": Kind("position", outputs={"position": "Position"}),
    "GeometryNodeInputIndex": Kind("index", outputs={"index": "Index"}, notes=("edge order",)),
    "GeometryNodeInputID": Kind("id", outputs={"id": "ID"}),
    "GeometryNodeInputNormal": Kind("normal", outputs={"normal": "Normal"}, notes=("normals",)),
    "GeometryNodeInputNamedAttribute": Kind(
        "named_attribute", outputs={"value": "Attribute"}, type=ATTRIBUTE, column="Name"
    ),
    "GeometryNodeInputMeshEdgeVertices": Kind(
        "edge_vertices",
        outputs={
            "index_1": "Vertex Index 1",
            "index_2": "Vertex Index 2",
            "position_1": "Position 1",
            "position_2": "Position 2",
        },
        notes=("edge vertices",),
    ),
    "GeometryNodeInputMeshVertexNeighbors": Kind(
        "vertex_neighbors", outputs={"vertices": "Vertex Count", "faces": "Face Count"}
    ),
    "ShaderNodeMath": Kind(
        "math", inputs={"a": "Value", "b": "Value_001"}, outputs={"value": "Value"}, op=("operation", MATH)
    ),
    "ShaderNodeVectorMath": Kind(
        "vector_math",
        inputs={"a": "Vector", "b": "Vector_001", "scale": "Scale"},
        outputs={"vector": "Vector", "value": "Value"},
        op=("operation", VECTOR_MATH),
    ),
    "FunctionNodeBooleanMath": Kind(
        "boolean_math",
        inputs={"a": "Boolean", "b": "Boolean_001"},
        outputs={"value": "Boolean"},
        op=("operation", BOOLEAN_MATH),
    ),
    "FunctionNodeCompare": Kind(
        "compare",
        inputs={"a": "A", "b": "B"},
        outputs={"result": "Result"},
        type=chosen("data_type", TYPES, "FLOAT INT"),
        op=("operation", COMPARE),
        still={"Epsilon": (0.0, "Epsilon 0, or Absolute of the difference and Less Than")},
    ),
    "ShaderNodeClamp": Kind(
        "clamp",
        inputs={"value": "Value", "min": "Min", "max": "Max"},
        outputs={"value": "Result"},
        fixed={"clamp_type": ("MINMAX", "Min Max, with Minimum and Maximum of the two ends")},
    ),
    "ShaderNodeMapRange": Kind(
        "map_range",
        inputs={
            "value": "Value",
            "from_min": "From Min",
            "from_max": "From Max",
            "to_min": "To Min",
            "to_max": "To Max",
        },
        outputs={"value": "Result"},
        clamp="clamp",
        fixed={
            "data_type": ("FLOAT", "one Map Range for each component"),
            "interpolation_type": ("LINEAR", "Linear"),
        },
    ),
    "ShaderNodeMix": Kind(
        "mix",
        inputs={"factor": "Factor", "a": "A", "b": "B"},
        outputs={"value": "Result"},
        type=chosen("data_type", TYPES, "FLOAT VECTOR"),
        fixed={
            "factor_mode": ("UNIFORM", "Uniform"),
            "clamp_factor": (True, "Clamp Factor, or Subtract, Multiply and Add"),
        },
    ),
    "FunctionNodeFloatToInt": Kind(
        "float_to_integer",
        inputs={"value": "Float"},
        outputs={"value": "Integer"},
        op=("rounding_mode", ROUNDING),
        notes=("rounded halves",),
    ),
    "ShaderNodeCombineXYZ": Kind(
        "combine_xyz", inputs={"x": "X", "y": "Y", "z": "Z"}, outputs={"vector": "Vector"}
    ),
    "ShaderNodeSeparateXYZ": Kind(
        "separate_xyz", inputs={"vector": "Vector"}, outputs={"x": "X", "y": "Y", "z": "Z"}
    ),
    "FunctionNodeRandomValue": Kind(
        "random_value",
        inputs={"min": "Min", "max": "Max", "probability": "Probability", "id": "ID", "seed": "Seed"},
        outputs={"value": "Value"},
        type=ATTRIBUTE,
        notes=("random values",),
    ),
    "GeometryNodeSwitch": Kind(
        "switch",
        inputs={"switch": "Switch", "false": "False", "true": "True"},
        outputs={"output": "Output"},
        type=chosen("input_type", TYPES, "FLOAT INT BOOLEAN VECTOR GEOMETRY"),
    ),
    "GeometryNodeAccumulateField": Kind(
        "accumulate_field",
        inputs={"value": "Value", "group": "Group Index"},
        outputs={"leading": "Leading", "trailing": "Trailing", "total": "Total"},
        type=chosen("data_type", TYPES, "FLOAT INT FLOAT_VECTOR"),
        place=ALL_PLACES,
    ),
    "GeometryNodeFieldAtIndex": Kind(
        "evaluate_at_index",
        inputs={"value": "Value", "index": "Index"},
        outputs={"value": "Value"},
        type=ATTRIBUTE,
        place=ALL_PLACES,
    ),
    "GeometryNodeFieldOnDomain": Kind(
        "evaluate_on_domain",
        inputs={"value": "Value"},
        outputs={"value": "Value"},
        type=ATTRIBUTE,
        place=ALL_PLACES,
        notes=("means of integers",),
    ),
    "GeometryNodeSampleIndex": Kind(
        "sample_index",
        inputs={"geometry": "Geometry", "value": "Value", "index": "Index"},
        outputs={"value": "Value"},
        type=ATTRIBUTE,
        place=ALL_PLACES,
        clamp="clamp",
        geometry="geometry",
    ),
    "GeometryNodeSampleNearest": Kind(
        "sample_nearest",
        inputs={"geometry": "Geometry", "position": "Sample Position"},
        outputs={"index": "Index"},
        place=ALL_PLACES,
        geometry="geometry",
        notes=("nearest among equals",),
    ),
    "GeometryNodeCaptureAttribute": Kind(
        "capture_attribute",
        inputs={"geometry": "Geometry", "value": "Value"},
        outputs={"geometry": "Geometry", "attribute": "Attribute"},
        type=ATTRIBUTE,
        place=ALL_PLACES,
        geometry="geometry",
        goes_into_instances=True,
    ),
    "GeometryNodeStoreNamedAttribute": Kind(
        "store_named_attribute",
        inputs={"geometry": "Geometry", "value": "Value"},
        outputs={"geometry": "Geometry"},
        type=ATTRIBUTE,
        place=ALL_PLACES,
        column="Name",
        geometry="geometry",
        goes_into_instances=True,
    ),
    "GeometryNodeRemoveAttribute": Kind(
        "remove_named_attribute",
        inputs={"geometry": "Geometry"},
        outputs={"geometry": "Geometry"},
        column="Name",
        geometry="geometry",
        goes_into_instances=True,
    ),
    "GeometryNodeAttributeStatistic": Kind(
        "attribute_statistic",
        inputs={"geometry": "Geometry", "selection": "Selection", "attribute": "Attribute"},
        outputs={"mean": "Mean", "sum": "Sum", "min": "Min", "max": "Max", "range": "Range"},
        place=ALL_PLACES,
        geometry="geometry",
        fixed={"data_type": ("FLOAT", "one Attribute Statistic for each component")},
    ),
    "GeometryNodeAttributeDomainSize": Kind(
        "domain_size",
        inputs={"geometry": "Geometry"},
        outputs={
            "points": "Point Count",
            "edges": "Edge Count",
            "faces": "Face Count",
            "corners": "Face Corner Count",
            "instances": "Instance Count",
        },
        geometry="geometry",
    ),
    "GeometryNodeSetPosition": Kind(
        "set_position",
        inputs={"geometry": "Geometry", "selection": "Selection", "position": "Position", "offset": "Offset"},
        outputs={"geometry": "Geometry"},
        geometry="geometry",
    ),
    "GeometryNodeSetID": Kind(
        "set_id",
        inputs={"geometry": "Geometry", "selection": "Selection", "id": "ID"},
        outputs={"geometry": "Geometry"},
        geometry="geometry",
        goes_into_instances=True,
    ),
    "GeometryNodeJoinGeometry": Kind(
        "join_geometry",
        inputs={"geometry": "Geometry"},
        outputs={"geometry": "Geometry"},
        notes=("joined columns",),
    ),
    "GeometryNodeTransform": Kind(
        "transform_geometry",
        inputs={"geometry": "Geometry", "translation": "Translation"},
        outputs={"geometry": "Geometry"},
        geometry="geometry",
    ),
    "GeometryNodeDeleteGeometry": Kind(
        "delete_geometry",
        inputs={"geometry": "Geometry", "selection": "Selection"},
        outputs={"geometry": "Geometry"},
        place=chosen("domain", PLACES, "POINT EDGE FACE INSTANCE"),
        geometry="geometry",
        goes_into_instances=True,
    ),
    "GeometryNodeSeparateGeometry": Kind(
        "separate_geometry",
        inputs={"geometry": "Geometry", "selection": "Selection"},
        outputs={"selection": "Selection", "inverted": "Inverted"},
        place=chosen("domain", PLACES, "POINT INSTANCE"),
        geometry="geometry",
        goes_into_instances=True,
    ),
    "GeometryNodeSeparateComponents": Kind(
        "separate_components",
        inputs={"geometry": "Geometry"},
        outputs={"mesh": "Mesh", "cloud": "Point Cloud", "instances": "Instances"},
    ),
    "GeometryNodeBoundBox": Kind(
        "bounding_box",
        inputs={"geometry": "Geometry"},
        outputs={"geometry": "Bounding Box", "min": "Min", "max": "Max"},
        geometry="geometry",
        goes_into_instances=True,
        notes=("orders of cuboids",),
    ),
    "GeometryNodeFlipFaces": Kind(
        "flip_faces",
        inputs={"geometry": "Mesh", "selection": "Selection"},
        outputs={"geometry": "Mesh"},
        geometry="geometry",
        goes_into_instances=True,
    ),
    "GeometryNodeMeshToPoints": Kind(
        "mesh_to_points",
        inputs={"geometry": "Mesh", "selection": "Selection", "position": "Position"},
        outputs={"geometry": "Points"},
        place=("mode", MESH_PLACES),
        geometry="geometry",
        dropped=NO_RADIUS,
        goes_into_instances=True,
        notes=("radius",),
    ),
    "GeometryNodePointsToVertices": Kind(
        "points_to_vertices",
        inputs={"geometry": "Points", "selection": "Selection"},
        outputs={"geometry": "Mesh"},
        geometry="geometry",
        goes_into_instances=True,
    ),
    "GeometryNodeDuplicateElements": Kind(
        "duplicate_elements",
        inputs={"geometry": "Geometry", "selection": "Selection", "amount": "Amount"},
        outputs={"geometry": "Geometry", "duplicate_index": "Duplicate Index"},
        geometry="geometry",
        fixed={"domain": ("POINT", "Point on a point cloud")},
        goes_into_instances=True,
    ),
    "GeometryNodeMeshLine": Kind(
        "mesh_line",
        inputs={"count": "Count", "start": "Start Location", "offset": "Offset"},
        outputs={"geometry": "Mesh"},
        fixed={"mode": ("OFFSET", "Offset"), "count_mode": ("TOTAL", "Count")},
    ),
    "GeometryNodeMeshGrid": Kind(
        "grid",
        inputs={"size_x": "Size X", "size_y": "Size Y", "vertices_x": "Vertices X", "vertices_y": "Vertices Y"},
        outputs={"geometry": "Mesh"},
        notes=("edge order",),
    ),
    "GeometryNodeMeshCube": Kind(
        "cube",
        inputs={"size": "Size"},
        outputs={"geometry": "Mesh"},
        still={axis: (2, "2 vertices along each axis") for axis in ("Vertices X", "Vertices Y", "Vertices Z")},
        notes=("orders of cuboids",),
    ),
    "GeometryNodePoints": Kind(
        "points",
        inputs={"count": "Count", "position": "Position"},
        outputs={"geometry": "Geometry"},
        dropped=NO_RADIUS,
        notes=("radius",),
    ),
    "GeometryNodeGeometryToInstance": Kind(
        "geometry_to_instance", inputs={"geometry": "Geometry"}, outputs={"geometry": "Instances"}
    ),
    "GeometryNodeInstanceOnPoints": Kind(
        "instance_on_points",
        inputs={"points": "Points", "selection": "Selection", "instance": "Instance", "scale": "Scale"},
        outputs={"geometry": "Instances"},
        geometry="points",
        still={
            "Pick Instance": (False, "Separate Components, and one Instance on Points for each geometry"),
            "Rotation": ((0.0, 0.0, 0.0), "Transform of the instanced geometry"),
        },
        dropped=("Instance Index",),
        goes_into_instances=True,
    ),
    "GeometryNodeRealizeInstances": Kind(
        "realize_instances",
        inputs={"geometry": "Geometry"},
        outputs={"geometry": "Geometry"},
        fixed={"legacy_behavior": (False, "Legacy Behavior off")},
        notes=("depth of instances",),
    ),
    "GeometryNodeTranslateInstances": Kind(
        "translate_instances",
        inputs={"geometry": "Instances", "selection": "Selection", "translation": "Translation"},
        outputs={"geometry": "Instances"},
        geometry="geometry",
        still={"Local Space": (False, "Local Space off")},
    ),
    "GeometryNodeScaleInstances": Kind(
        "scale_instances",
        inputs={"geometry": "Instances", "selection": "Selection", "scale": "Scale"},
        outputs={"geometry": "Instances"},
        geometry="geometry",
        still={
            "Local Space": (True, "Local Space on"),
            "Center": ((0.0, 0.0, 0.0), "Translate Instances around it"),
        },
    ),
    "GeometryNodeInstancesToPoints": Kind(
        "instances_to_points",
        inputs={"geometry": "Instances", "selection": "Selection", "position": "Position"},
        outputs={"geometry": "Points"},
        geometry="geometry",
        dropped=NO_RADIUS,
        notes=("radius",),
    ),
}

# Kinds that Blender 3.4 has no node for; `group` is a node group.
ELSEWHERE = {"integer_math", "import_obj", "repeat", "group"}

# The differences by design, in the words of the table of docs/BLENDER.md.
DIFFERENCES = {
    "edge order": "edges are numbered as a reader first meets them, and those of a grid by columns",
    "normals": "on vertices and edges the mean of the normals of the faces around, not scaled to length 1",
    "edge vertices": "the lesser vertex first, and interpolated where it is not read on edges",
    "rounded halves": "Round takes negative halves up",
    "random values": "other random values from the same id and seed",
    "means of integers": "means of integers are rounded down",
    "nearest among equals": "of equally near elements the first",
    "joined columns": "a joined attribute has the type and the domain of the first geometry that has it",
    "orders of cuboids": "another order of the vertices, edges and faces",
    "radius": "points have no radius",
    "depth of instances": "instances nested deeper than 8 are left out, with a warning",
    "modulo": "Modulo has the sign of the divisor",
    "field at a single value": "a field that reads elements is read as 0 where a single value is wanted",
}
