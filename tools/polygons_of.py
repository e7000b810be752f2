#!/usr/bin/env python3
"""Makes a polygon file from GeoJSON, or from lines of well-known text: whole numbers, and names that the program takes.

Usage: tools/polygons_of.py [--scale S] [--name PROPERTY] [--table TABLE] [--parts largest] [--holes drop] FILE.. > a.polygons
       tools/polygons_of.py [--name PROPERTY] [--table TABLE] --nodes NETWORK FILE.. > a.net

FILE is GeoJSON, a feature collection, a feature or a geometry; or else a text with one polygon a line, a name and a polygon
in well-known text such as `mill POLYGON ((0.5 0, 3 0, 3 2.5, 0.5 0))`, as a polygon file is one. There blank lines and what
comes after `#` are passed over. `-` is standard input.

Names. A feature is named by its `id`, if all features of the file have one and these differ, or else by the one property
whose values are texts or whole numbers that all differ. Where several properties would do, --name has to tell which. A
feature without a name is `feature_` and its number, from 1. A name that the program doesn't take is written as near to it
as it may be: letters without their accents, `_` in place of other signs and before a digit at the beginning, 64 letters,
and a number after it where another polygon has the name. --table writes a table of both, with tabs between: the name that
is written, and the one of the file.

Coordinates. Each is multiplied by the scale, exactly, and rounded to the nearest whole number, a half away from 0. Then the
whole plan is moved so that its middle is at 0 0, and may be 200,000,000 units wide and high. Without --scale the scale is the
least power of ten by which no decimal is lost, or the greatest one for which the plan isn't too wide. The least distance
that counts should be a unit at least: rounding moves each coordinate by half a unit at most, but two polygons that share a
border only nearly may then touch, overlap or be apart. Several files are moved together; those of several calls don't fit.

A third and a fourth coordinate are dropped, points that stand twice in a row written once, and an open ring is closed. Of
several parts --parts largest takes the one of the greatest area, and --holes drop the outline alone. Standard error tells
all this, the scale, and how far rounding moved a point at most.

With --nodes the network NETWORK is written in place of the polygons: its facts as they are, and each name of a polygon that
it lacks as one more node, so that `solve --polygons` takes both. NETWORK needs a line of names.

What can't be done is refused by a sentence with the name of the feature, and status 1: parts and holes that nothing was said
of, another geometry, fewer than 3 or more than 256 vertices, more than 128 polygons, a ring that meets itself, and whatever
isn't such a file.
"""
import argparse
import json
import re
import sys
import unicodedata
from collections import Counter, namedtuple
from decimal import Context, Decimal, InvalidOperation, ROUND_CEILING, ROUND_HALF_UP, localcontext
from itertools import count, takewhile

LIMIT = 100_000_000
MOST_POLYGONS, MOST_VERTICES, MOST_NODES, MOST_LETTERS = 128, 256, 256, 64
GEOMETRIES = ("Polygon", "MultiPolygon", "Point", "MultiPoint", "LineString", "MultiLineString", "GeometryCollection")
LINE = re.compile(rf"\s*(?:(.*?\S)\s+)?({'|'.join(GEOMETRIES)})\s*(?:ZM|Z|M)?\s*(\(.*|EMPTY)\s*$", re.IGNORECASE)
NUMBER = re.compile(r"[+-]?([0-9]+\.?[0-9]*|\.[0-9]+)(e[+-]?[0-9]+)?", re.IGNORECASE)
NODES = re.compile(r"(\s*nodes\s+)([0-9]{1,18})(\s*)")
NAMES = re.compile(r"(\s*names\s*\()([^()]*?)(\s*\)\s*)")
# letters that aren't a letter with an accent, the signs that no name has, and how many digits a coordinate may have before
# and after the point
LETTERS = str.maketrans({"ß": "ss", "Æ": "AE", "æ": "ae", "Œ": "OE", "œ": "oe", "Ø": "O", "ø": "o", "Ł": "L", "ł": "l",
                         "Đ": "D", "đ": "d", "Ð": "D", "ð": "d", "Þ": "Th", "þ": "th", "ı": "i", "’": "'", "–": "-"})
OTHER = r'(?:[^!-~]|[(),:#"\\])+'
DIGITS_BEFORE, DIGITS_AFTER = 30, 400

Feature = namedtuple("Feature", "number id properties kind coordinates")
Named = namedtuple("Named", "label written feature")


class Refused(Exception):
    """Why nothing is written."""


def ask(holds, sentence):
    """Refuses by a sentence what doesn't hold."""
    if not holds:
        raise Refused(sentence)


def some_of(words, most=8):
    """Some words, and how many more there are."""
    words = list(words)
    return ", ".join(words[:most]) + (f" and {len(words) - most} more" if len(words) > most else "")


def each(names, values, call):
    """What a call returns of each value; a refusal gets the name of its value."""
    found = []
    for name, value in zip(names, values):
        try:
            found.append(call(value))
        except Refused as fault:
            raise Refused(f"{name}: {fault}") from None
    return found


class Notes:
    """What is told of files that are taken: sentences, and the polygons of which something was left out or added."""

    def __init__(self):
        self.said, self.high, self.parts, self.holes, self.open = [], [], [], [], []

    def say(self, sentence):
        """Adds a sentence, once."""
        if sentence not in self.said:
            self.said.append(sentence)

    def say_outlines(self):
        """Adds what became of outlines."""
        for names, said in ((self.high, "a third or fourth coordinate is dropped"), (self.parts, "the largest part is taken"),
                            (self.holes, "holes are dropped"), (self.open, "an open ring is closed")):
            if names:
                self.say(f"{said}: {some_of(names)}")


# ---- reading


def read(name, errors="strict"):
    """The text of a file, or of standard input."""
    try:
        if name == "-":
            return sys.stdin.buffer.read().decode("utf-8-sig", errors)
        with open(name, encoding="utf-8-sig", errors=errors, newline="") as source:
            return source.read()
    except OSError as fault:
        raise Refused(f"it can't be read: {fault.strerror}") from None
    except UnicodeDecodeError:
        raise Refused("it isn't a text in UTF-8") from None


def number(text):
    """The number that a text has, exactly, or else the text."""
    try:
        return Decimal(text) if NUMBER.fullmatch(text) else text
    except InvalidOperation:
        return text


def feature_of(place, entry):
    """A feature of GeoJSON, or a geometry as one."""
    ask(isinstance(entry, dict) and entry.get("type") in ("Feature",) + GEOMETRIES, f"feature {place} isn't one")
    geometry = entry.get("geometry") if entry["type"] == "Feature" else entry
    properties = entry.get("properties") if entry["type"] == "Feature" else None
    geometry, properties = (value if isinstance(value, dict) else {} for value in (geometry, properties))
    return Feature(place, text_of(entry.get("id")), properties, geometry.get("type"), geometry.get("coordinates"))


def features_of_json(text):
    """The features of a text in GeoJSON."""
    try:
        data = json.loads(text, parse_float=number, parse_int=number, parse_constant=str)
    except ValueError as fault:
        raise Refused(f"it is no JSON text: {fault}") from None
    except RecursionError:
        raise Refused("its brackets are too deep") from None
    kind = data.get("type") if isinstance(data, dict) else None
    ask(kind in ("FeatureCollection", "Feature") + GEOMETRIES, "it is JSON, but no FeatureCollection, Feature or geometry")
    entries = data.get("features") if kind == "FeatureCollection" else [data]
    ask(isinstance(entries, list), "its features are no list")
    return [feature_of(place, entry) for place, entry in enumerate(entries, 1)]


def lists_of(body):
    """The brackets of well-known text as lists, each point a list of its words."""
    def words(match):
        return json.dumps(match.group().split()) if match.group().strip() else ""

    if body.upper() == "EMPTY":
        return []
    try:
        return json.loads(re.sub(r"[^(),]+", words, body).replace("(", "[").replace(")", "]"))
    except (ValueError, RecursionError):
        return None


def features_of_lines(text):
    """The features of lines of well-known text."""
    features = []
    for place, line in enumerate(text.split("\n"), 1):
        said = line.split("#")[0]
        if said.strip():
            match = LINE.match(said)
            ask(match, f"line {place} has no polygon: {said.strip()[:60]}")
            name, kind, body = match.groups()
            features.append(Feature(len(features) + 1, name, {}, kind, lists_of(body)))
    return features


# ---- names


def is_name(word):
    """1 to 64 visible characters without brackets, commas, colons, `#`, `"` and `\\`; no digit first, and not `.`."""
    return (0 < len(word) <= MOST_LETTERS and word != "." and not word[0].isdigit()
            and all("!" <= c <= "~" and c not in '(),:#"\\' for c in word))


def text_of(value):
    """A name or a number as a text, a whole one without a point; other values have none."""
    if isinstance(value, Decimal):
        return str(int(value)) if value.adjusted() < DIGITS_BEFORE and is_whole(value) else str(value)
    return value if isinstance(value, str) and value.strip() else None


def tells_apart(texts):
    """Whether each feature has a text, and these differ."""
    return None not in texts and len(set(texts)) == len(texts)


def properties_of(features):
    """The names of all properties, in their order."""
    return list(dict.fromkeys(key for feature in features for key in feature.properties))


def is_whole(value):
    """Not a number with a fraction, as an area is one."""
    return not isinstance(value, Decimal) or value == value.to_integral_value()


def naming_property(features):
    """The one property that tells the features apart."""
    keys = properties_of(features)
    found = [key for key in keys if tells_apart([text_of(feature.properties.get(key)) for feature in features])
             and all(is_whole(feature.properties[key]) for feature in features)]
    ask(len(found) < 2, f"several properties would do as names; --name has to tell which one: {some_of(found, 40)}")
    ask(found or not keys, "no property has another value for each feature; "
                           f"--name may tell which one names them nevertheless: {some_of(keys, 40)}")
    return found[0] if found else None


def labels_of(features, key, notes):
    """The name of each feature as its file has it, or none."""
    keys, ids = properties_of(features), [feature.id for feature in features]
    if key is None and any(ids) and (tells_apart(ids) or not keys):
        notes.say("named by id" + (f"; --name would take a property: {some_of(keys)}" if keys else ""))
        return ids
    if key == "id" and key not in keys and any(ids):
        return ids
    if key is None:
        key = naming_property(features)
        notes.say(f"named by the property {key}" if key is not None else "named by numbers")
    else:
        ask(key in keys, f"no feature has the property {key}; there are: {some_of(keys, 40) or 'none'}")
    return [text_of(feature.properties.get(key)) for feature in features]


def near(label):
    """The word with the form of a name that is nearest to a label, or nothing."""
    plain = unicodedata.normalize("NFKD", label.translate(LETTERS))
    plain = "".join(c for c in plain if not unicodedata.combining(c))
    word = re.sub(OTHER, "_", re.sub(f"^{OTHER}|{OTHER}$", "", plain))[:MOST_LETTERS]
    return word if not word or is_name(word) else ("_" + word)[:MOST_LETTERS]


def distinct(word, taken):
    """The word, or the first one with a number after it that isn't taken."""
    words = (word[:MOST_LETTERS - len(end)] + end for end in (f"_{k}" for k in count(2)))
    return word if word not in taken else next(other for other in words if other not in taken)


def with_names(features, labels):
    """The features with the names that are written. Labels that are names have them first."""
    taken, found, kept = {label for label in labels if label and is_name(label)}, [], set()
    for feature, label in zip(features, labels):
        word = (near(label) if label else "") or f"feature_{feature.number}"
        if word != label or label in kept:
            word = distinct(word, taken)
        taken.add(word)
        kept.add(word)
        found.append(Named(label or word, word, feature))
    return found


def say_names(polygons, notes):
    """Adds what became of names."""
    other = sum(polygon.label != polygon.written for polygon in polygons)
    twice = [label for label, times in Counter(polygon.label for polygon in polygons).items() if times > 1]
    if other:
        notes.say(f"{other} of {len(polygons)} names are written in another form, as --table lists")
    if twice:
        notes.say(f"names that stand twice have a number: {some_of(twice)}")


def features_of(name, key, notes):
    """The features of a file, and the names that it has for them."""
    text = read(name)
    is_json = name.endswith((".json", ".geojson")) or text.lstrip()[:1] in ("{", "[")
    features = features_of_json(text) if is_json else features_of_lines(text)
    ask(features, "it has no polygon")
    return features, labels_of(features, key, notes) if is_json else [feature.id for feature in features]


def polygons_of(files, key, notes):
    """The features of all files with their names."""
    found = each(files, files, lambda name: features_of(name, key, notes))
    polygons = with_names(*([entry for part in parts for entry in part] for parts in zip(*found)))
    if len(polygons) > MOST_POLYGONS:
        raise Refused(f"there are {len(polygons)} polygons, more than {MOST_POLYGONS}; "
                      f"the first too many is {polygons[MOST_POLYGONS].label}")
    say_names(polygons, notes)
    return polygons


def table(polygons):
    """The lines of the table of names."""
    rows = [("name", "original")] + [(polygon.written, polygon.label) for polygon in polygons]
    return "".join(f"{written}\t{' '.join(label.split())}\n" for written, label in rows)


# ---- outlines


def coordinate(value):
    """A coordinate as a number."""
    value = number(value) if isinstance(value, str) else value
    ask(isinstance(value, Decimal), f"{value[:60] if isinstance(value, str) else 'a coordinate'} is no number")
    within = value.adjusted() < DIGITS_BEFORE and value.as_tuple().exponent >= -DIGITS_AFTER
    ask(within, f"{str(value)[:60]} is beyond any plan")
    return value


def points_of(ring):
    """The points of a ring, with two coordinates or more."""
    ask(isinstance(ring, list) and all(isinstance(point, list) and len(point) > 1 for point in ring),
        "a point of its ring doesn't have two coordinates")
    return [(coordinate(point[0]), coordinate(point[1])) for point in ring]


def area(points):
    """Twice the area of a ring."""
    return abs(sum(a * d - c * b for (a, b), (c, d) in zip(points, points[1:] + points[:1])))


def parts_of(feature):
    """The parts of a feature, each a list of rings."""
    ask(isinstance(feature.kind, str), "it has no geometry")
    kind = feature.kind.upper()
    ask(kind in ("POLYGON", "MULTIPOLYGON"), f"a {feature.kind[:60]} is no polygon")
    parts = [feature.coordinates] if kind == "POLYGON" else feature.coordinates
    ask(isinstance(parts, list) and all(isinstance(part, list) for part in parts), "its brackets don't fit")
    return [part for part in parts if part]


def outline(polygon, asked, notes):
    """The points of the one ring that is taken."""
    parts = parts_of(polygon.feature)
    ask(parts, "it is empty")
    ask(len(parts) == 1 or asked.parts, f"it has {len(parts)} parts; --parts largest would take the largest")
    part = max(parts, key=lambda part: area(points_of(part[0])))
    ask(len(part) == 1 or asked.holes, "it has a hole; --holes drop would take its outline alone")
    points = points_of(part[0])
    ask(points, "it is empty")
    for kind, holds in ((notes.high, max(map(len, part[0])) > 2), (notes.parts, len(parts) > 1), (notes.holes, len(part) > 1),
                        (notes.open, points[0] != points[-1])):
        if holds:
            kind.append(polygon.label)
    return points


# ---- whole numbers


def whole(value, scale):
    """The coordinate times the scale, rounded."""
    return int((value * scale).to_integral_value(ROUND_HALF_UP))


def plain(value):
    """A number without an exponent."""
    return format(Decimal(value).normalize(), "f")


def is_within(points, scale):
    """Whether a plan isn't too wide or too high."""
    return all(whole(max(side), scale) - whole(min(side), scale) <= 2 * LIMIT for side in zip(*points))


def best_scale(points):
    """The least power of ten by which no decimal is lost, or the greatest one for which the plan isn't too wide."""
    places = max(0, *(-value.normalize().as_tuple().exponent for point in points for value in point))
    ends = list(zip(*((min(side), max(side)) for side in zip(*points))))
    return next(scale for scale in (Decimal(1).scaleb(places - k) for k in count()) if is_within(ends, scale))


def scale_of(text, points):
    """The scale that is asked for, or the best one."""
    if text is None:
        return best_scale(points)
    scale = number(text)
    ask(isinstance(scale, Decimal) and 0 < scale < 10 ** DIGITS_BEFORE and scale.as_tuple().exponent >= -DIGITS_BEFORE,
        f"the scale {text} isn't a number above 0")
    ask(is_within(points, scale), f"at the scale {text} the plan has more than {2 * LIMIT} units from end to end; "
                                  f"{plain(best_scale(points))} would do")
    return scale


def farthest(points, scale):
    """How far rounding moves a point at most, two digits of it."""
    most = max(sum((value * scale - whole(value, scale)) ** 2 for value in point) for point in points)
    few = Context(prec=2 * DIGITS_BEFORE)
    return Context(prec=2, rounding=ROUND_CEILING).plus(few.divide(few.sqrt(most), scale))


def turn(a, b, c):
    """On which side of the line from a to b the point c lies: above 0 at the left, 0 on it."""
    return (b[0] - a[0]) * (c[1] - a[1]) - (b[1] - a[1]) * (c[0] - a[0])


def meet(a, b, c, d):
    """Whether two edges have a point in common: their boxes have one, and neither is at one side of the other."""
    boxes = all(max(min(a[k], b[k]), min(c[k], d[k])) <= min(max(a[k], b[k]), max(c[k], d[k])) for k in (0, 1))
    one, two = sorted((turn(a, b, c), turn(a, b, d))), sorted((turn(c, d, a), turn(c, d, b)))
    return boxes and one[0] <= 0 <= one[1] and two[0] <= 0 <= two[1]


def fold(a, b, c):
    """Whether the edge from b to c goes back on the one from a to b."""
    return turn(a, b, c) == 0 and (a[0] - b[0]) * (c[0] - b[0]) + (a[1] - b[1]) * (c[1] - b[1]) > 0


def touch(ring, e, f):
    """Whether the edges e < f of a closed ring meet where they may not."""
    last = len(ring) - 2
    if f == e + 1:
        return fold(ring[e], ring[f], ring[f + 1])
    if (e, f) == (0, last):
        return fold(ring[f], ring[0], ring[1])
    return meet(ring[e], ring[e + 1], ring[f], ring[f + 1])


def meeting(ring):
    """The first two edges of a closed ring that meet where they may not, or nothing."""
    ends = [sorted((a[0], b[0])) for a, b in zip(ring, ring[1:])]
    order, found = sorted(range(len(ends)), key=ends.__getitem__), []
    for place, e in enumerate(order):
        # those after it that begin no farther to the right than it ends
        near = takewhile(lambda f, right=ends[e][1]: ends[f][0] <= right, order[place + 1:])
        found += [pair for pair in (tuple(sorted((e, f))) for f in near) if touch(ring, *pair)]
    return min(found, default=None)


def closed_ring(points, place=tuple):
    """Points without those at the place of the one before, and the first one again at the end."""
    kept = [point for k, point in enumerate(points) if k == 0 or place(point) != place(points[k - 1])]
    return kept if place(kept[0]) == place(kept[-1]) else kept + kept[:1]


def ring_of(points, scale, middle):
    """A ring as whole numbers round the middle, whose last point is its first."""
    moved = [tuple(whole(value, scale) - zero for value, zero in zip(point, middle)) for point in points]
    pairs = closed_ring(list(zip(moved, points)), lambda pair: pair[0])
    ring, vertices = [pair[0] for pair in pairs], len(pairs) - 1
    ask(vertices >= 3, f"at the scale {plain(scale)} fewer than 3 vertices are left")
    ask(vertices <= MOST_VERTICES, f"it has {vertices} vertices, more than {MOST_VERTICES}")
    found = meeting(ring)
    if found:
        one, two = (" to ".join(" ".join(map(plain, pairs[end][1])) for end in (e, e + 1)) for e in found)
        only = "" if meeting(closed_ring(points)) else f" at the scale {plain(scale)}, but not before rounding"
        raise Refused(f"its ring meets itself{only}: the edge from {one} and the one from {two}")
    return ring


def polygon_file(polygons, asked, notes):
    """The lines of a polygon file."""
    labels = [polygon.label for polygon in polygons]
    outlines = each(labels, polygons, lambda polygon: outline(polygon, asked, notes))
    points = [point for part in outlines for point in part]
    scale = scale_of(asked.scale, points)
    middle = [(whole(min(side), scale) + whole(max(side), scale)) // 2 for side in zip(*points)]
    rings = each(labels, outlines, lambda part: ring_of(part, scale, middle))
    at = " ".join(plain(Context(prec=DIGITS_BEFORE).divide(Decimal(value), scale)) for value in middle)
    moved = farthest(points, scale)
    far = f"; rounding moved a point by {plain(moved)} at most" if moved else ""
    notes.say_outlines()
    notes.say(f"scale {plain(scale)}, with {at} at 0 0{far}")
    return "".join(f"{polygon.written} POLYGON ((" + ", ".join(f"{x} {y}" for x, y in ring) + "))\n"
                   for polygon, ring in zip(polygons, rings))


# ---- networks


def network_with(text, names, notes):
    """The text of a network with the names that it lacks as further nodes."""
    lines = text.split("\n")
    said = [line.split("#")[0] for line in lines]
    first, second = ([k for k, words in enumerate(said) if words.strip()] + [None, None])[:2]
    nodes = first is not None and NODES.fullmatch(said[first])
    ask(nodes, "it doesn't begin with `nodes` and a number")
    known = second is not None and NAMES.fullmatch(said[second])
    ask(known, "it has no line of names, and numbers in place of them can't be extended")
    here = known.group(2).split()
    ask(len(here) == int(nodes.group(2)), f"it has {len(here)} names for {nodes.group(2)} nodes")
    more = [name for name in names if name not in here]
    ask(len(here) + len(more) <= MOST_NODES, f"{len(here) + len(more)} nodes would be there, more than {MOST_NODES}")
    if more:
        for k, new in ((first, nodes.expand(rf"\g<1>{len(here) + len(more)}\3")),
                       (second, " ".join([known.group(1) + known.group(2), *more]) + known.group(3))):
            lines[k] = new + lines[k][len(said[k]):]
    notes.say(f"{len(more)} of {len(names)} polygons are further nodes")
    return "\n".join(lines)


# ---- the program


def write_table(name, polygons):
    """Writes the table of names to a file."""
    try:
        with open(name, "w", encoding="utf-8", errors="backslashreplace", newline="\n") as target:
            target.write(table(polygons))
    except OSError as fault:
        raise Refused(f"{name}: it can't be written: {fault.strerror}") from None


def answer_to(asked):
    """The text that is asked for, and what is told of it."""
    notes = Notes()
    with localcontext(Context(prec=4 * (DIGITS_BEFORE + DIGITS_AFTER))):
        polygons = polygons_of(asked.files, asked.name, notes)
        if asked.nodes is None:
            text = polygon_file(polygons, asked, notes)
        else:
            names = [polygon.written for polygon in polygons]
            text, = each([asked.nodes], [asked.nodes], lambda name: network_with(read(name, "surrogateescape"), names, notes))
    if asked.table is not None:
        write_table(asked.table, polygons)
    return text, notes.said


def words_of(words=None):
    """What the words ask for."""
    parser = argparse.ArgumentParser(description="makes a polygon file from GeoJSON or well-known text")
    parser.add_argument("--scale", metavar="S", help="how many units one unit of the file has; else it is chosen")
    parser.add_argument("--name", metavar="PROPERTY", help="the property that names a feature of GeoJSON; else it is found")
    parser.add_argument("--table", metavar="TABLE", help="the file for a table of the names that are written and those there")
    parser.add_argument("--parts", choices=("largest",), help="of several parts takes the largest")
    parser.add_argument("--holes", choices=("drop",), help="takes the outline alone")
    parser.add_argument("--nodes", metavar="NETWORK", help="writes this network with the polygons as nodes, and no polygons")
    parser.add_argument("files", metavar="FILE", nargs="+", help="GeoJSON, or lines of well-known text; - for standard input")
    return parser.parse_args(words)


def main():
    try:
        text, told = answer_to(words_of())
    except Refused as fault:
        print(f"refused: {fault}", file=sys.stderr)
        return 1
    for sentence in told:
        print(sentence, file=sys.stderr)
    sys.stdout.buffer.write(text.encode("utf-8", "surrogateescape"))
    return 0


if __name__ == "__main__":
    sys.exit(main())
