#!/usr/bin/env python3
"""Tests of polygons_of.py. The last line is 'N passed, N failed, N skipped'.

Usage: tools/test_polygons_of.py [PROGRAM]

Where the built program is, it has to take what the tool writes and to refuse the rings that the tool refuses; and where
Python has geopandas and shapely, the relations that it tells of layers of open data are compared with those of GEOS.
"""
import json
import pathlib
import random
import subprocess
import sys
import tempfile
from decimal import Decimal
from itertools import combinations

from polygons_of import Feature, Notes, Refused, answer_to, is_name, meeting, network_with, with_names, words_of

TOOLS = pathlib.Path(__file__).resolve().parent
TOP = TOOLS.parent
TOOL = TOOLS / "polygons_of.py"
PROGRAM = TOP / "crates" / "qsr_main" / "out" / "qsr_main"
COUNTIES = pathlib.Path("/usr/lib/R/site-library/sf/shape/nc.shp")
SQUARE = [[0, 0], [2, 0], [2, 2], [0, 2], [0, 0]]
INNER = [[1, 1], [2, 1], [1, 2], [1, 1]]
GREAT = [[2, 2], [8, 2], [8, 8], [2, 8], [2, 2]]
HIGH = [[0, 0, 7], [2, 0, 7], [2, 2, 7, 5], [0, 2], [0, 0, 7]]
DONE = "POLYGON ((-1 -1, 1 -1, 1 1, -1 1, -1 -1))"
AT, BY_ID = "scale 1, with 1 1 at 0 0", "named by id"
# a triangle, and what is written of it
SMALL, SMALL_RING = "POLYGON ((0 0, 8 0, 0 8, 0 0))", "-4 -4, 4 -4, -4 4, -4 -4"
SMALL_DONE, SMALL_AT = f"POLYGON (({SMALL_RING}))", "scale 1, with 4 4 at 0 0"
OTHER = "names are written in another form, as --table lists"
HOLE = "it has a hole; --holes drop would take its outline alone"
PARTS = "it has 2 parts; --parts largest would take the largest"
NO_POINT = "a point of its ring doesn't have two coordinates"
NO_NAMES = "it has no line of names, and numbers in place of them can't be extended"
ARC = [f"{k} {k * k}" for k in range(257)]


def feature(name, kind="Polygon", coordinates=(SQUARE,), **properties):
    geometry = {"type": kind, "coordinates": coordinates} if kind else None
    return {"type": "Feature", "id": name, "properties": properties, "geometry": geometry}


def bare(**properties):
    """A feature without an id."""
    return {key: value for key, value in feature("", **properties).items() if key != "id"}


def collection(*features):
    return json.dumps({"type": "FeatureCollection", "features": features})


def plan(*coordinates):
    """A line with a polygon named a."""
    return "a POLYGON ((" + ", ".join(coordinates) + "))"


# ---- worked inputs

# what it shows, the line, the scale, what comes of it, how many units are one, what lies at 0 0 and how far points moved
SCALED = [
    ("decimals by a scale", plan("0.5 0", "3 0", "3 2.5", "0.5 0"), "10",
     "-12 -12, 13 -12, 13 13, -12 -12", "10", "1.7 1.2", ""),
    ("a half away from 0", plan("-0.5 0", "0.5 4", "9 -2.5", "-0.5 0"), "1", "-5 0, -3 4, 5 -3, -5 0", "1", "4 0", "0.5"),
    ("no rounding by floats", plan("0.145 0", "9 0", "0 9", "0.145 0"), "100", "-435 -450, 450 -450, -450 450, -435 -450",
     "100", "4.5 4.5", "0.005"),
    ("the scale that loses nothing", plan("0.145 0", "9 0", "0 9", "0.145 0"), None,
     "-4355 -4500, 4500 -4500, -4500 4500, -4355 -4500", "1000", "4.5 4.5", ""),
    ("zeros after the point", plan("0.500 0", "8.00 0", "0 1e1", "0.5 0.0"), None,
     "-35 -50, 40 -50, -40 50, -35 -50", "10", "4 5", ""),
    ("both coordinates of a point", plan("0 0", "10.3 0.4", "0 9", "0 0"), "1", "-5 -4, 5 -4, -5 5, -5 -4", "1", "5 4", "0.5"),
    ("two digits, upwards", plan("0 0", "9.1111 0", "0 9", "0 0"), "1", "-4 -4, 5 -4, -4 5, -4 -4", "1", "4 4", "0.12"),
    ("metres with centimetres",
     plan("456123.37 5427890.12", "456123.39 5427890.12", "456123.39 5427890.16", "456123.37 5427890.12"), None,
     "-1 -2, 1 -2, 1 2, -1 -2", "100", "456123.38 5427890.14", ""),
    ("degrees with seven decimals",
     plan("8.4037563 49.0068901", "8.4037565 49.0068901", "8.4037565 49.0068905", "8.4037563 49.0068901"), None,
     "-1 -2, 1 -2, 1 2, -1 -2", "10000000", "8.4037564 49.0068903", ""),
    ("the widest plan", plan("0 0", "2 0", "0 2", "0 0"), "100000000",
     "-100000000 -100000000, 100000000 -100000000, -100000000 100000000, -100000000 -100000000", "100000000", "1 1", ""),
    ("decimals too fine for the limit", plan("0 0", "30 0", "0 0.12345678", "0 0"), None,
     "-15000000 -61728, 15000000 -61728, -15000000 61729, -15000000 -61728", "1000000", "15 0.061728", "0.00000022"),
    ("metres too wide for the limit", plan("0 0", "3e9 0", "0 3e9", "0 0"), None,
     "-15000000 -15000000, 15000000 -15000000, -15000000 15000000, -15000000 -15000000", "0.01", "1500000000 1500000000", ""),
    ("points that fall together", plan("0 0", "0.1 0", "8 0", "0 8", "0 0"), "1", SMALL_RING, "1", "4 4", "0.1"),
    ("points that stand twice", plan("0 0", "0 0", "8 0", "8 0", "0 8", "0 0", "0 0"), None, SMALL_RING, "1", "4 4", ""),
    ("an end that rounding closes", plan("0 0", "8 0", "0 8", "0 0.1", "0 0"), "1", SMALL_RING, "1", "4 4", "0.1"),
]

# what it shows, the text, the words, the lines that are written, what is told
WRITTEN = [
    ("lines to pass over", f"# plan\n\n a {SMALL} # end\r\n", "", [f"a {SMALL_DONE}"], [SMALL_AT]),
    ("a byte order mark", f"\ufeffa {SMALL}\n", "", [f"a {SMALL_DONE}"], [SMALL_AT]),
    ("a name with blanks in a line", f"the old mill {SMALL}", "", [f"the_old_mill {SMALL_DONE}"],
     [f"1 of 1 {OTHER}", SMALL_AT]),
    ("a line without a name", SMALL, "", [f"feature_1 {SMALL_DONE}"], [SMALL_AT]),
    ("a third coordinate in a line", "a POLYGON Z ((0 0 1, 8 0 1, 0 8 1, 0 0 1))", "", [f"a {SMALL_DONE}"],
     ["a third or fourth coordinate is dropped: a", SMALL_AT]),
    ("a multipolygon in a line", "a MultiPolygonZM(((0 0 1 2,8 0 1 2,0 8 1 2,0 0 1 2)))", "", [f"a {SMALL_DONE}"],
     ["a third or fourth coordinate is dropped: a", SMALL_AT]),
    ("the middle of several", f"a {SMALL}\nb POLYGON ((10 0, 12 0, 12 1, 10 0))", "",
     ["a POLYGON ((-6 -4, 2 -4, -6 4, -6 -4))", "b POLYGON ((4 -4, 6 -4, 6 -3, 4 -4))"], ["scale 1, with 6 4 at 0 0"]),
    ("a geometry", json.dumps({"type": "Polygon", "coordinates": [SQUARE]}), "", [f"feature_1 {DONE}"],
     ["named by numbers", AT]),
    ("a feature", json.dumps(feature("p")), "", [f"p {DONE}"], [BY_ID, AT]),
    ("GeoJSON with a byte order mark", "\ufeff" + collection(feature("p")), "", [f"p {DONE}"], [BY_ID, AT]),
    ("an id, where properties are there", collection(feature("p", parcel="q", size=1.5)), "", [f"p {DONE}"],
     ["named by id; --name would take a property: parcel, size", AT]),
    ("a number as an id", collection(feature(17)), "", [f"_17 {DONE}"],
     [BY_ID, f"1 of 1 {OTHER}", AT]),
    ("the only property that differs", collection(bare(parcel="q1", use="field"), bare(parcel="q2", use="field")), "",
     [f"q1 {DONE}", f"q2 {DONE}"], ["named by the property parcel", AT]),
    ("a property, where ids are equal", collection(feature("p", parcel="q1"), feature("p", parcel="q2")), "",
     [f"q1 {DONE}", f"q2 {DONE}"], ["named by the property parcel", AT]),
    ("a property, where ids are missing", collection(feature("p", parcel="q1"), bare(parcel="q2")), "",
     [f"q1 {DONE}", f"q2 {DONE}"], ["named by the property parcel", AT]),
    ("no names by areas", collection(bare(area=1.5, no=7.0), bare(area=2.5, no=8)), "", [f"_7 {DONE}", f"_8 {DONE}"],
     ["named by the property no", f"2 of 2 {OTHER}", AT]),
    ("no names by yes and no", collection(bare(wet=True, no=7), bare(wet=False, no="r8")), "", [f"_7 {DONE}", f"r8 {DONE}"],
     ["named by the property no", f"1 of 2 {OTHER}", AT]),
    ("a property that is told", collection(feature("p", parcel="q", use="field")), "--name use", [f"field {DONE}"], [AT]),
    ("the id that is told", collection(feature("p", parcel="q")), "--name id", [f"p {DONE}"], [AT]),
    ("a property that stands twice", collection(bare(use="field"), bare(use="field")), "--name use",
     [f"field {DONE}", f"field_2 {DONE}"],
     [f"1 of 2 {OTHER}", "names that stand twice have a number: field", AT]),
    ("a property that one lacks", collection(bare(use="field"), bare(use=None), bare(use=" ")), "--name use",
     [f"field {DONE}", f"feature_2 {DONE}", f"feature_3 {DONE}"], [AT]),
    ("no id and no property", collection(bare(), bare()), "", [f"feature_1 {DONE}", f"feature_2 {DONE}"],
     ["named by numbers", AT]),
    ("some ids and no property", collection(feature("p"), bare()), "", [f"p {DONE}", f"feature_2 {DONE}"], [BY_ID, AT]),
    ("a multipolygon of one part", collection(feature("p", "MultiPolygon", [[SQUARE]])), "", [f"p {DONE}"], [BY_ID, AT]),
    ("a third and a fourth coordinate", collection(feature("p", coordinates=[HIGH]), feature("q")), "",
     [f"p {DONE}", f"q {DONE}"], [BY_ID, "a third or fourth coordinate is dropped: p", AT]),
    ("many of them, told once", collection(*(feature(f"p{k}", coordinates=[HIGH]) for k in range(10))), "",
     [f"p{k} {DONE}" for k in range(10)],
     [BY_ID, "a third or fourth coordinate is dropped: p0, p1, p2, p3, p4, p5, p6, p7 and 2 more", AT]),
    ("the largest part", collection(feature("isles", "MultiPolygon", [[SQUARE], [GREAT], [INNER]])), "--parts largest",
     ["isles POLYGON ((-3 -3, 3 -3, 3 3, -3 3, -3 -3))"],
     [BY_ID, "the largest part is taken: isles", "scale 1, with 5 5 at 0 0"]),
    ("the largest part, the other way round", collection(feature("isles", "MultiPolygon", [[SQUARE], [GREAT[::-1]]])),
     "--parts largest", ["isles POLYGON ((-3 -3, -3 3, 3 3, 3 -3, -3 -3))"],
     [BY_ID, "the largest part is taken: isles", "scale 1, with 5 5 at 0 0"]),
    ("a part that is empty", collection(feature("isles", "MultiPolygon", [[], [SQUARE]])), "", [f"isles {DONE}"], [BY_ID, AT]),
    ("holes that are dropped", collection(feature("lake", coordinates=[SQUARE, INNER])), "--holes drop", [f"lake {DONE}"],
     [BY_ID, "holes are dropped: lake", AT]),
    ("an open ring", collection(feature("p", coordinates=[SQUARE[:-1]])), "", [f"p {DONE}"],
     [BY_ID, "an open ring is closed: p", AT]),
    ("256 vertices", plan(*ARC[:256], ARC[0]), "", None, ["scale 1, with 127 32512 at 0 0"]),
    ("128 polygons", collection(*(feature(f"p{k}") for k in range(128))), "", None, [BY_ID, AT]),
]

# what it shows, the text, the words, why it is refused
REFUSED = [
    ("nothing", "", "", "plan: it has no polygon"),
    ("no polygons", "# none\n", "", "plan: it has no polygon"),
    ("an empty collection", collection(), "", "plan: it has no polygon"),
    ("another list", "[1, 2]", "", "plan: it is JSON, but no FeatureCollection, Feature or geometry"),
    ("another object", '{"type": "Topology"}', "", "plan: it is JSON, but no FeatureCollection, Feature or geometry"),
    ("another type", '{"type": ["Feature"]}', "", "plan: it is JSON, but no FeatureCollection, Feature or geometry"),
    ("no JSON", '{"type": ', "", "plan: it is no JSON text: Expecting value: line 1 column 10 (char 9)"),
    ("deep brackets", "[" * 100_000, "", "plan: its brackets are too deep"),
    ("a line of something else", "\nnodes 3", "", "plan: line 2 has no polygon: nodes 3"),
    ("a name alone", "mill", "", "plan: line 1 has no polygon: mill"),
    ("no list of features", '{"type": "FeatureCollection", "features": 7}', "", "plan: its features are no list"),
    ("no features at all", '{"type": "FeatureCollection"}', "", "plan: its features are no list"),
    ("a feature that is a number", collection(feature("p"), 7), "", "plan: feature 2 isn't one"),
    ("a feature of another type", collection({"type": "Topology"}), "", "plan: feature 1 isn't one"),
    ("several properties", collection(bare(parcel="q1", no=1), bare(parcel="q2", no=2)), "",
     "plan: several properties would do as names; --name has to tell which one: parcel, no"),
    ("no property that differs", collection(bare(use="field", wet=1), bare(use="field", wet=1)), "",
     "plan: no property has another value for each feature; --name may tell which one names them nevertheless: use, wet"),
    ("no such property", collection(feature("p", parcel="q", use="u")), "--name plot",
     "plan: no feature has the property plot; there are: parcel, use"),
    ("no property at all", collection(feature("p")), "--name plot", "plan: no feature has the property plot; there are: none"),
    ("a hole", collection(feature("lake", coordinates=[SQUARE, INNER])), "", f"lake: {HOLE}"),
    ("a hole in a line", f"the lake {SMALL[:-1]}, (1 1, 2 1, 1 2, 1 1))", "",
     f"the lake: {HOLE}"),
    ("a hole of the largest part", collection(feature("isles", "MultiPolygon", [[SQUARE], [GREAT, INNER]])), "--parts largest",
     f"isles: {HOLE}"),
    ("two parts", collection(feature("isles", "MultiPolygon", [[SQUARE], [SQUARE]])), "",
     f"isles: {PARTS}"),
    ("a line", collection(feature("road", "LineString", SQUARE)), "", "road: a LineString is no polygon"),
    ("a point in well-known text", "well POINT (1 1)", "", "well: a POINT is no polygon"),
    ("no geometry", collection(feature("ghost", None)), "", "ghost: it has no geometry"),
    ("no id, where it is told", collection(bare(no=7)), "--name id", "plan: no feature has the property id; there are: no"),
    ("a type that is a number", collection({**feature("p"), "geometry": {"type": 7}}), "", "p: it has no geometry"),
    ("no coordinates", collection(feature("p", coordinates=None)), "", "p: its brackets don't fit"),
    ("a part that is none", collection(feature("p", "MultiPolygon", [7])), "", "p: its brackets don't fit"),
    ("an empty polygon", collection(feature("p", coordinates=[])), "", "p: it is empty"),
    ("an empty ring", collection(feature("p", coordinates=[[]])), "", "p: it is empty"),
    ("an empty polygon in a line", "p POLYGON EMPTY", "", "p: it is empty"),
    ("a ring of bare numbers", collection(feature("p", coordinates=[[1, 2, 3]])), "", f"p: {NO_POINT}"),
    ("a ring that is a number", collection(feature("p", coordinates=[7])), "", f"p: {NO_POINT}"),
    ("one bracket too few", "p POLYGON (0 0, 9 0, 0 9, 0 0)", "", f"p: {NO_POINT}"),
    ("a bracket that isn't closed", "p POLYGON ((0 0, 9 0, 0 9, 0 0)", "", "p: its brackets don't fit"),
    ("a point with one coordinate", collection(feature("p", coordinates=[[[1], *SQUARE]])), "",
     f"p: {NO_POINT}"),
    ("a word for a number", collection(feature("p", coordinates=[[["x", 0], *SQUARE]])), "", "p: x is no number"),
    ("a word for a number in a line", "p POLYGON ((0 0, x 0, 0 9, 0 0))", "", "p: x is no number"),
    ("no number", collection(feature("p", coordinates=[[[float("nan"), 0], *SQUARE]])), "", "p: NaN is no number"),
    ("nothing for a number", collection(feature("p", coordinates=[[[None, 0], *SQUARE]])), "", "p: a coordinate is no number"),
    ("a list for a number", collection(feature("p", coordinates=[[[[1, 2], 0], *SQUARE]])), "", "p: a coordinate is no number"),
    ("a number beyond all plans", "p POLYGON ((0 0, 1e30 0, 0 9, 0 0))", "", "p: 1E+30 is beyond any plan"),
    ("too many decimals", "p POLYGON ((0 0, 1e-401 0, 0 9, 0 0))", "", "p: 1E-401 is beyond any plan"),
    ("a number beyond all numbers", f"p POLYGON ((0 0, 1e{'9' * 30} 0, 0 9, 0 0))", "", f"p: 1e{'9' * 30} is no number"),
    ("a plan too wide for the scale", plan("0 0", "2 0", "0 2.5", "0 0"), "--scale 80000001",
     "at the scale 80000001 the plan has more than 200000000 units from end to end; 10 would do"),
    ("no scale", plan("0 0", "2 0", "0 2", "0 0"), "--scale 0", "the scale 0 isn't a number above 0"),
    ("a word for a scale", plan("0 0", "2 0", "0 2", "0 0"), "--scale fine", "the scale fine isn't a number above 0"),
    ("too few vertices", plan("0 0", "0.2 0", "0 9", "0 0"), "--scale 1", "a: at the scale 1 fewer than 3 vertices are left"),
    ("two vertices", plan("0 0", "2 0", "0 0"), "", "a: at the scale 1 fewer than 3 vertices are left"),
    ("257 vertices", plan(*ARC, ARC[0]), "", "a: it has 257 vertices, more than 256"),
    ("129 polygons", collection(*(feature(f"p{k}") for k in range(1, 131))), "",
     "there are 130 polygons, more than 128; the first too many is p129"),
    ("a ring that crosses itself", "tie POLYGON ((0 0, 0.5 0.5, 0.5 0, 0 0.5, 0 0))", "",
     "tie: its ring meets itself: the edge from 0 0 to 0.5 0.5 and the one from 0.5 0 to 0 0.5"),
    ("a ring that crosses itself by rounding", "bay POLYGON ((0 0, 9 0, 9 9, 5 0.1, 0 9, 0 0))", "--scale 1",
     "bay: its ring meets itself at the scale 1, but not before rounding: "
     "the edge from 0 0 to 9 0 and the one from 9 9 to 5 0.1"),
]

# what it shows, the ring, whether it meets itself where it may not
RINGS = [
    ("a triangle", "0 0, 4 0, 0 4", False),
    ("the other way round", "0 0, 0 4, 4 0", False),
    ("a bay", "0 0, 4 0, 4 4, 2 1, 0 4", False),
    ("a vertex on a straight border", "0 0, 2 0, 4 0, 0 4", False),
    ("a tie", "0 0, 4 4, 4 0, 0 4", True),
    ("a vertex on another edge", "0 0, 4 0, 4 4, 2 0, 0 4", True),
    ("a vertex on a vertex", "0 0, 4 0, 2 2, 4 4, 0 4, 2 2", True),
    ("a thorn", "0 0, 4 0, 9 0, 4 0, 0 4", True),
    ("a thorn at the end", "0 0, 4 0, 0 4, 0 -3", True),
    ("points of a line", "0 0, 2 0, 4 0", True),
    ("edges one over another", "0 0, 4 0, 4 4, 3 4, 3 0, 1 0, 1 4, 0 4", True),
    ("edges of a line, apart", "0 0, 2 0, 2 2, 4 2, 4 0, 6 0, 6 4, 0 4", False),
    ("far to the right", "0 0, 9 0, 9 9, 8 -1, 0 9", True),
]

# what it shows, the names of a file, those that are written
NAMES = [
    ("names as they may be", ["p1", "a/b", "[x]", "..", "_7"], ["p1", "a/b", "[x]", "..", "_7"]),
    ("accents", ["Höfe Süd", "Łódź", "Île-d'Yeu"], ["Hofe_Sud", "Lodz", "Ile-d'Yeu"]),
    ("letters with two signs", ["Straße", "Ærø", "Þingvellir"], ["Strasse", "AEro", "Thingvellir"]),
    ("slashes and numbers", ["Flurstück 1/1", "17", "3b"], ["Flurstuck_1/1", "_17", "_3b"]),
    ("brackets, commas, colons", ["Parcel (12)", "a: b, c", 'C:\\"x"', "#5"], ["Parcel_12", "a_b_c", "C_x", "_5"]),
    ("blanks of any kind", ["  mill ", "a\tb\nc", "a\u00a0b"], ["mill", "a_b_c", "a_b"]),
    ("the end sign", ["."], ["_."]),
    ("letters that have none near", ["東京", "Киев 7", "¿?"], ["feature_1", "_7", "?"]),
    ("64 letters at most", ["n" * 64, "m" * 65, "7" * 64], ["n" * 64, "m" * 64, "_" + "7" * 63]),
    ("names first that may be", ["Höfe", "Hofe"], ["Hofe_2", "Hofe"]),
    ("several that fall together", ["a b", "a,b", "a_b"], ["a_b_2", "a_b_3", "a_b"]),
    ("equal ones", ["park", "park", "park"], ["park", "park_2", "park_3"]),
    ("a number that is taken", ["park", "park", "park_2"], ["park", "park_3", "park_2"]),
    ("a number after a long one", ["n" * 65, "n" * 64], ["n" * 62 + "_2", "n" * 64]),
    ("no name", [None, "x", "feature_1"], ["feature_1_2", "x", "feature_1"]),
]

PLAN_NET = "# a plan\nnodes 2 # two\n\n names ( west p1 )\t# so far\np1 west ( TPP NTPP )\n0 1 ( PO ) # again\n.\n"

# what it shows, the network, the names of polygons, the network with them or why there is none, what is told
EXTENDED = [
    ("two more nodes", PLAN_NET, "p1 p2 p3", PLAN_NET.replace("2 # two", "4 # two").replace("p1 )", "p1 p2 p3 )"),
     "2 of 3 polygons are further nodes"),
    ("none more", PLAN_NET, "p1 west", PLAN_NET, "0 of 2 polygons are further nodes"),
    ("no blanks in it", "nodes 1\nnames(a)\n.", "b", "nodes 2\nnames(a b)\n.", "1 of 1 polygons are further nodes"),
    ("lines that end with a CR", "nodes 1\r\nnames ( a )\r\n.\r\n", "b", "nodes 2\r\nnames ( a b )\r\n.\r\n",
     "1 of 1 polygons are further nodes"),
    ("facts of names that it lacks", "nodes 1\nnames ( a )\na b ( EC )\n.\n", "b", "nodes 2\nnames ( a b )\na b ( EC )\n.\n",
     "1 of 1 polygons are further nodes"),
    ("256 nodes", f"nodes 255\nnames ( {' '.join(f'n{k}' for k in range(255))} )\n.\n", "p",
     f"nodes 256\nnames ( {' '.join(f'n{k}' for k in range(255))} p )\n.\n", "1 of 1 polygons are further nodes"),
    ("257 nodes", f"nodes 255\nnames ( {' '.join(f'n{k}' for k in range(255))} )\n.\n", "p q",
     "257 nodes would be there, more than 256", ""),
    ("numbers for names", "nodes 2\n0 1 ( EC )\n.\n", "p", NO_NAMES, ""),
    ("numbers and no facts", "nodes 2\n", "p", NO_NAMES, ""),
    ("other many names", "nodes 3\nnames ( a b )\n.\n", "p", "it has 2 names for 3 nodes", ""),
    ("no network", "yes 3\nnodes 2\n", "p", "it doesn't begin with `nodes` and a number", ""),
    ("nothing", "", "p", "it doesn't begin with `nodes` and a number", ""),
]


# ---- what is found


def made(text, words=""):
    """The lines that are written and what is told, or why nothing is."""
    with tempfile.TemporaryDirectory() as room:
        path = pathlib.Path(room) / "plan"
        path.write_text(text, encoding="utf-8", newline="")
        try:
            return answer_to(words_of([*words.split(), str(path)]))
        except Refused as fault:
            return str(fault).replace(str(path), "plan")


def written(labels):
    """The names that are written for those of a file."""
    features = [Feature(k, label, {}, None, None) for k, label in enumerate(labels, 1)]
    return [polygon.written for polygon in with_names(features, labels)]


def with_nodes(network, names):
    """The network with the names, and what is told, or why there is none."""
    notes = Notes()
    try:
        return network_with(network, names.split(), notes), *notes.said
    except Refused as fault:
        return str(fault), ""


def closed(text):
    """The points of a ring, the first one again at the end."""
    points = [tuple(map(int, point.split())) for point in text.split(",")]
    return points + points[:1]


def run(words, data=b"", folder=TOP):
    """What a program does with the words: its status, what it writes, and what it says."""
    done = subprocess.run([str(word) for word in words], input=data, capture_output=True, cwd=folder, check=False)
    return done.returncode, done.stdout, done.stderr.decode()


# ---- the program


def parcels(unit, west, south):
    """Eight parcels in each of five rows, with corners moved by chance, in whole units from the west and the south."""
    draw = random.Random(5)
    corner = {(x, y): f"{west + (x * 3000 + draw.randrange(900)) * unit} {south + (y * 3000 + draw.randrange(900)) * unit}"
              for x in range(9) for y in range(6)}
    places = [(x, y) for y in range(5) for x in range(8)]
    return places, [[corner[x + a, y + b] for a, b in ((0, 0), (1, 0), (1, 1), (0, 1), (0, 0))] for x, y in places]


def relations(path, program):
    """The relations that the program tells of the polygons of a file."""
    return [line.split()[-1] for line in run([program, "relate", path])[1].decode().splitlines()]


def parcel_cases(program, room):
    """Parcels that share borders and corners, in metres and in degrees, at full precision."""
    for shows, unit, west, south, scale in (("metres", "0.01", "456123.37", "5427890.12", "100"),
                                            ("degrees", "0.0000001", "8.4037563", "49.0068901", "10000000")):
        places, rings = parcels(*map(Decimal, (unit, west, south)))
        text, told = made("\n".join(f"p{k} POLYGON (({', '.join(ring)}))" for k, ring in enumerate(rings)))
        (room / "parcels").write_text(text)
        expected = ["EC" if max(abs(a - c), abs(b - d)) == 1 else "DC" for (a, b), (c, d) in combinations(places, 2)]
        found = relations(room / "parcels", program)
        yield f"parcels in {shows}", (found, told[-1].split(",")[0]), (expected, f"scale {scale}")


def ring_cases(program, room):
    """Rings by chance: the program refuses those that meet themselves, at the same edges, and no others."""
    draw = random.Random(9)
    for place in range(200):
        points = draw.sample([(x, y) for x in range(5) for y in range(5)], draw.randrange(3, 8))
        ring = points + points[:1]
        (room / "ring").write_text("a POLYGON ((" + ", ".join(f"{x} {y}" for x, y in ring) + "))\n")
        found = meeting(ring)
        expected = "refused 35 1 {} {}\n".format(*found) if found else ""
        yield f"ring {place}: {points}", run([program, "relate", room / "ring"])[1].decode(), expected


def bent_cases(program, room):
    """Bent texts: each is refused by a sentence, or the program takes what is written."""
    draw = random.Random(3)
    for source in ("examples/fields.geojson", "examples/garden.polygons"):
        text = (TOP / source).read_text(encoding="utf-8")
        for place in range(250):
            at, some = draw.randrange(len(text)), draw.randrange(len(text))
            bent = text[:at] + draw.choice(["", text[some:some + 9], *"[]{}(),:\"-.0e7"]) + text[at + draw.randrange(9):]
            found = made(bent)
            status = 0
            if not isinstance(found, str):
                (room / "bent").write_text(found[0])
                status = run([program, "relate", room / "bent"])[0]
            yield f"{source} bent {place}", status, 0


def example_cases(program, room):
    """The example of docs/EXAMPLES.md, as it is written there."""
    text = (TOP / "docs" / "EXAMPLES.md").read_text(encoding="utf-8")
    own = text[text.index("**A layer of a geographic system.**"):].split("\n\n**")[0]
    blocks = ["".join(line[4:] + "\n" for line in block.split("\n")) for block in own.split("\n\n") if block.startswith("    ")]
    made_file, told, asked, related, added, solved = blocks
    for wanted, line in ((told, made_file), (related, asked), (solved, added)):
        line = line.replace("tools/", f"{TOOLS}/").replace("examples/", f"{TOP}/examples/").replace("./higwadel", str(program))
        status, output, said = run(["bash", "-e", "-o", "pipefail", "-c", line], folder=room)
        yield f"the example: {line}", (status, said.split(" are further nodes\n")[-1] + output.decode()), (0, wanted)


PROGRAM_CASES = (parcel_cases, ring_cases, bent_cases, example_cases)


# ---- open data


def layers():
    """Layers of open data: what each is, its features, the words for the tool, and whether rounding brings no two together."""
    import geopandas
    countries = geopandas.read_file(geopandas.datasets.get_path("naturalearth_lowres"))
    few = countries[[len(outline(shape).exterior.coords) <= 257 for shape in countries.geometry]]
    words = "--name name --parts largest --holes drop"
    yield "the first 128 countries", few.head(128), words, False
    yield "128 countries", few.iloc[20:148], words, True
    yield "the last 128 countries", few.tail(128), f"{words} --scale 1000", False
    yield "the countries of Africa", few[few.continent == "Africa"], f"{words} --scale 1000", True
    yield "the countries of South America", few[few.continent == "South America"], words, True
    if COUNTIES.exists():
        yield "the counties of North Carolina", geopandas.read_file(COUNTIES), "--name NAME --parts largest", True


def outline(shape):
    """The largest part of a shape without its holes."""
    from shapely.geometry import Polygon
    return Polygon(max(getattr(shape, "geoms", [shape]), key=lambda part: Polygon(part.exterior).area).exterior)


def shapes_of(text):
    """The polygons of a polygon file, as shapes."""
    from shapely.wkt import loads
    return [loads(line.split(" ", 1)[1]) for line in text.splitlines()]


def layer_cases(program, room):
    """Layers of open data: the program tells the matrices of GEOS, of what is written and of the data as they are."""
    for shows, layer, words, is_alike in layers():
        text, _ = made(layer.to_json(drop_id=True), words)
        (room / "layer").write_text(text)
        found = [line.split()[-2] for line in run([program, "relate", room / "layer"])[1].decode().splitlines()]
        kinds = {"written": shapes_of(text)}
        if is_alike:
            kinds["as they are"] = [outline(shape) for shape in layer.geometry]
        for kind, shapes in kinds.items():
            yield f"{shows}, {kind}", found, [a.relate(b) for a, b in combinations(shapes, 2)]


# ---- the tests


def worked_cases():
    """The tables above."""
    for shows, line, scale, ring, units, middle, moved in SCALED:
        told = f"scale {units}, with {middle} at 0 0" + (f"; rounding moved a point by {moved} at most" if moved else "")
        yield shows, made(line, f"--scale {scale}" if scale else ""), (f"a POLYGON (({ring}))\n", [told])
    for shows, text, words, lines, told in WRITTEN:
        found = made(text, words)
        yield shows, found, (found[0] if lines is None else "".join(f"{line}\n" for line in lines), told)
    for shows, text, words, expected in REFUSED:
        yield shows, made(text, words), expected
    for shows, text, expected in RINGS:
        yield shows, meeting(closed(text)) is not None, expected
        yield f"turned: {shows}", meeting(closed(text)[::-1]) is not None, expected
    for shows, labels, expected in NAMES:
        yield shows, written(labels), expected
        yield f"are names: {shows}", [name for name in written(labels) if not is_name(name)], []
        yield f"again: {shows}", written(expected), expected
    for shows, network, names, expected, told in EXTENDED:
        yield shows, with_nodes(network, names), (expected, told)


def file_cases(room):
    """The tool itself, over files."""
    plan_file, network, names = room / "a.geojson", room / "a.net", room / "names"
    plan_file.write_text(collection(feature("H\u00f6fe\tS\u00fcd"), feature("b")), encoding="utf-8")
    network.write_bytes(b"\xef\xbb\xbfnodes 1 # \xff\r\nnames ( b )\n.\n")
    other = f"1 of 2 {OTHER}\n"
    yield "a table", run([TOOL, "--table", names, plan_file]), \
        (0, f"Hofe_Sud {DONE}\nb {DONE}\n".encode(), f"{BY_ID}\n{other}{AT}\n")
    yield "its lines", names.read_bytes().decode(), "name\toriginal\nHofe_Sud\tH\u00f6fe S\u00fcd\nb\tb\n"
    yield "a network with other bytes", run([TOOL, "--nodes", network, plan_file]), \
        (0, b"nodes 2 # \xff\r\nnames ( b Hofe_Sud )\n.\n", f"{BY_ID}\n{other}1 of 2 polygons are further nodes\n")
    yield "standard input", run([TOOL, "-"], f"a {SMALL}".encode()), (0, f"a {SMALL_DONE}\n".encode(), f"{SMALL_AT}\n")
    plan_file.write_text(collection(feature("p")))
    (room / "b").write_text("p POLYGON ((10 0, 12 0, 12 2, 10 2, 10 0))\n")
    yield "two files", run([TOOL, plan_file, room / "b"]), \
        (0, b"p POLYGON ((-6 -1, -4 -1, -4 1, -6 1, -6 -1))\np_2 POLYGON ((4 -1, 6 -1, 6 1, 4 1, 4 -1))\n",
         f"{BY_ID}\n{other}names that stand twice have a number: p\nscale 1, with 6 1 at 0 0\n")
    for shows, words, sentence in (
            ("a missing file", ["none.geojson"], "none.geojson: it can't be read: No such file or directory"),
            ("a folder", ["docs"], "docs: it can't be read: Is a directory"),
            ("a missing network", ["--nodes", "none.net", plan_file], "none.net: it can't be read: No such file or directory"),
            ("no network", ["--nodes", plan_file, plan_file], f"{plan_file}: it doesn't begin with `nodes` and a number"),
            ("a table in no folder", ["--table", "none/a", plan_file],
             "none/a: it can't be written: No such file or directory")):
        yield shows, run([TOOL, *words]), (1, b"", f"refused: {sentence}\n")
    plan_file.write_bytes("p".encode("utf-16"))
    yield "a text that isn't UTF-8", run([TOOL, plan_file]), (1, b"", f"refused: {plan_file}: it isn't a text in UTF-8\n")


def has_layers():
    """Whether Python has what reads layers of open data and relates them."""
    try:
        import geopandas
        return bool(geopandas.datasets.available)
    except (ImportError, AttributeError):
        return False


def main():
    program = pathlib.Path(sys.argv[1]).resolve() if sys.argv[1:] else PROGRAM
    groups = list(PROGRAM_CASES) if program.exists() else []
    groups += [layer_cases] if program.exists() and has_layers() else []
    skipped, count, failed = len(PROGRAM_CASES) + 1 - len(groups), 0, 0
    with tempfile.TemporaryDirectory() as name:
        room = pathlib.Path(name)
        for cases in (worked_cases(), file_cases(room), *(group(program, room) for group in groups)):
            for shows, found, expected in cases:
                count += 1
                if found != expected:
                    failed += 1
                    print(f"{shows}: {str(found)[:600]!r} in place of {str(expected)[:600]!r}")
    print(f"{count - failed} passed, {failed} failed, {skipped} skipped")
    return 1 if failed else 0


if __name__ == "__main__":
    sys.exit(main())
