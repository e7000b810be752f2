#!/usr/bin/env python3
"""Tests of check_trace.py and trim_trace.py. The last line is 'N passed, N failed, N skipped'.

Usage: tools/test_traces.py [PROGRAM]

The worked certificates are by hand. Where the built program is, it searches and traces the networks of examples and of a
seeded generator: each trace has to be accepted as it is written and as it is trimmed, and refused as soon as it is bent.
"""
import json
import pathlib
import random
import subprocess
import sys
import tempfile
from itertools import combinations

import check_trace
import trim_trace

TOOLS = pathlib.Path(__file__).resolve().parent
EXAMPLES = TOOLS.parent / "examples"
PROGRAM = TOOLS.parent / "crates" / "qsr_main" / "out" / "qsr_main"
FRIENDS = str(EXAMPLES / "friends.table")
ACCEPTED, EMPTY_NOWHERE = "accepted", "not accepted: node 0: no set is empty"
OTHER, NO_BASE = "not accepted: it is of other nodes or base relations", "not accepted: each edge needs one base relation"
NO_CHILD = "not accepted: node 1: preorder has no child of this number here"
FORM = "refused: the certificate isn't in its form, or lists no steps"
NETWORK = "refused: the network isn't in its form, or the relations aren't"
NAMES = {"rcc8": ["DC", "EC", "PO", "TPP", "NTPP", "TPPi", "NTPPi", "EQ"], "point": ["<", "=", ">"],
         "allen": ["b", "m", "o", "fi", "di", "s", "eq", "si", "d", "f", "oi", "mi", "bi"],
         FRIENDS: ["same", "friends", "strangers"]}


def net(nodes, *facts):
    return "\n".join([f"nodes {nodes}", *facts, ".", ""]).encode()


def cert(calculus, nodes, tree, verdict="no", version=2, **more):
    """The line of a certificate, in the form in which the program writes it."""
    value = {"nodes": nodes, "relations": NAMES[calculus], **more, "tree": tree, "verdict": verdict, "version": version}
    return json.dumps(value, separators=(",", ":")).encode() + b"\n"


def split(i, k, parts, children, steps):
    return ["split", i, k, parts, children, steps]


def empty(*steps):
    return ["empty", [list(step) for step in steps]]


# ---- worked certificates

CYCLE = net(3, "0 1 ( < )", "1 2 ( < )", "2 0 ( < )")
CHAIN = net(4, "0 1 ( < )", "1 2 ( < )", "2 3 ( < )", "3 0 ( < )")
WEAK = net(4, "0 1 ( < = )", "1 2 ( < )", "2 3 ( < )", "3 0 ( < )")
SPLIT = cert("point", 4, [split(0, 1, [1, 2], [1, 2], [[0, 1, 2], [1, 2, 3]]), empty((0, 1, 3)), empty((0, 1, 3))])
OWN = net(4, "0 2 ( < )", "2 1 ( < )", "1 3 ( < )", "3 0 ( < )")
PLACES = net(3, "names ( a b c )", "a b ( NTPP )  # a lies well inside b")
DRAWN = b"b c 2FF1FF212 NTPP\na c FF2FF1212 DC\n"
APART = cert("rcc8", 3, [empty((0, 1, 2))])
GUESTS = net(3, "0 1 ( friends )", "1 2 ( friends )", "0 2 ( friends )")

# what it shows, the calculus, the network, the certificate, the answer, and the lines of relations where there are any
CHECKED = [
    ("a step", "point", CYCLE, cert("point", 3, [empty((0, 1, 2))]), ACCEPTED),
    ("a step with a third node below the first", "point", CYCLE, cert("point", 3, [empty((2, 1, 0))]), ACCEPTED),
    ("a step by the converses", "point", CYCLE, cert("point", 3, [empty((0, 2, 1))]), ACCEPTED),
    ("a budget whose tree refutes", "point", CYCLE, cert("point", 3, [empty((0, 1, 2))], "budget"), ACCEPTED),
    ("two steps", "point", CHAIN, cert("point", 4, [empty((0, 1, 2), (0, 2, 3))]), ACCEPTED),
    ("a split with steps", "point", WEAK, SPLIT, ACCEPTED),
    ("a split by a narrowed edge", "point", OWN,
     cert("point", 4, [split(0, 1, [1], [1], [[0, 2, 1]]), empty((0, 1, 3))]), ACCEPTED),
    ("parts that overlap", "point", WEAK, cert("point", 4, [
        split(0, 1, [3, 6], [1, 2], [[1, 2, 3]]), empty((0, 1, 3)), empty((1, 3, 0))]), ACCEPTED),
    ("a stated empty set", "point", net(2, "0 1 ( )"), cert("point", 2, [empty()]), ACCEPTED),
    ("a part that is empty", "point", net(2, "0 1 ( )"), cert("point", 2, [split(0, 1, [0], [1], []), empty()]), ACCEPTED),
    ("facts that meet", "point", net(2, "0 1 ( < = )", "01 00 ( < )"), cert("point", 2, [empty()]), ACCEPTED),
    ("regions", "rcc8", net(3, "0 1 ( NTPP )", "1 2 ( TPP EQ )", "2 0 ( EC )"), APART, ACCEPTED),
    ("intervals", "allen", net(3, "0 1 ( d )", "2 1 ( b )", "0 2 ( b )"), cert("allen", 3, [empty((0, 1, 2))]), ACCEPTED),
    ("intervals that don't conflict", "allen", net(3, "0 1 ( d )", "1 2 ( o )", "0 2 ( b )"),
     cert("allen", 3, [empty((0, 1, 2))]), EMPTY_NOWHERE),
    ("a table file", FRIENDS, GUESTS, cert(FRIENDS, 3, [empty((0, 1, 2))]), ACCEPTED),
    ("facts of polygons", "rcc8", PLACES, APART, ACCEPTED, DRAWN),
    ("facts of polygons that are left out", "rcc8", PLACES, APART, EMPTY_NOWHERE),
    ("a yes", "point", net(3, "2 0 ( > )"), cert("point", 3, [["found"]], "yes", 1, scenario=[0, 0, 0]), ACCEPTED),
    ("a yes of four nodes", "point", net(4, "3 2 ( < )"),
     cert("point", 4, [], "yes", 1, scenario=[0, 0, 0, 0, 0, 2]), ACCEPTED),
    ("a yes that isn't in a set", "point", net(3, "1 0 ( < )"), cert("point", 3, [], "yes", 1, scenario=[0, 0, 0]),
     "not accepted: nodes 0 1: the scenario's relation isn't in their set"),
    ("a yes that doesn't compose", "point", net(3), cert("point", 3, [], "yes", 1, scenario=[0, 2, 0]),
     "not accepted: nodes 0 1 2: the scenario's relations don't compose"),
    ("a yes that is too short", "point", net(3), cert("point", 3, [], "yes", 1, scenario=[0, 0]), NO_BASE),
    ("a number that is no base relation", "point", net(2), cert("point", 2, [], "yes", 1, scenario=[3]), NO_BASE),
    ("a dropped step", "point", CHAIN, cert("point", 4, [empty((0, 2, 3))]), EMPTY_NOWHERE),
    ("another network", "point", net(3, "0 1 ( < )", "1 2 ( < )"), cert("point", 3, [empty((0, 1, 2))]), EMPTY_NOWHERE),
    ("parts that miss a base relation", "point", WEAK, cert("point", 4, [split(0, 1, [5], [1], [[1, 2, 3]]), empty((0, 1, 3))]),
     "not accepted: node 0: the parts leave out ="),
    ("no parts", "point", net(2), cert("point", 2, [split(0, 1, [], [], [])]),
     "not accepted: node 0: there are 0 parts and 0 children"),
    ("a step out of range", "point", CYCLE, cert("point", 3, [empty((0, 1, 2), (0, 1, 3))]),
     "not accepted: node 0, step 1: 0 1 3 aren't three nodes of the network"),
    ("a step of two nodes", "point", CYCLE, cert("point", 3, [empty((0, 1, 0))]),
     "not accepted: node 0, step 0: 0 1 0 aren't three nodes of the network"),
    ("a step before the first node", "point", CYCLE, cert("point", 3, [empty((0, 1, -1))]),
     "not accepted: node 0, step 0: 0 1 -1 aren't three nodes of the network"),
    ("an edge out of range", "point", CYCLE, cert("point", 3, [split(0, 3, [7], [1], []), empty((0, 1, 2))]),
     "not accepted: node 0: 0 3 is no edge of the network"),
    ("an edge the other way round", "point", CYCLE, cert("point", 3, [split(1, 0, [7], [1], []), empty((0, 1, 2))]),
     "not accepted: node 0: 1 0 is no edge of the network"),
    ("an edge of one node", "point", net(1), cert("point", 1, [split(0, 0, [], [], [])]),
     "not accepted: node 0: 0 0 is no edge of the network"),
    ("a part without a child", "point", WEAK, cert("point", 4, [split(0, 1, [1, 2], [1], [[1, 2, 3]]), empty((0, 1, 3))]),
     "not accepted: node 0: there are 2 parts and 1 children"),
    ("a child of another number", "point", CYCLE, cert("point", 3, [split(0, 1, [7], [2], []), empty((0, 1, 2))]), NO_CHILD),
    ("a child that isn't there", "point", CYCLE, cert("point", 3, [split(0, 1, [7], [1], [])]),
     "not accepted: node 1: it isn't there"),
    ("no tree", "point", CYCLE, cert("point", 3, []), "not accepted: node 0: it isn't there"),
    ("a node under no split", "point", CYCLE, cert("point", 3, [empty((0, 1, 2)), empty((0, 1, 2))]), NO_CHILD),
    ("a leaf that shows nothing", "point", CYCLE, cert("point", 3, [["open"]], "budget"),
     "not accepted: node 0: open shows nothing"),
    ("another number of nodes", "point", CYCLE, cert("point", 4, [empty((0, 1, 2))]), OTHER),
    ("other base relations", "point", CYCLE, cert(FRIENDS, 3, [empty((0, 1, 2))]), OTHER),
    ("no steps", "point", CYCLE, cert("point", 3, [["empty"]], version=1), FORM),
    ("steps in version 1", "point", CYCLE, cert("point", 3, [empty((0, 1, 2))], version=1), FORM),
    ("a sweep", "point", CYCLE, cert("point", 3, [["empty", "sweep"]]), FORM),
    ("a step of two numbers", "point", CYCLE, cert("point", 3, [empty((0, 1))]), FORM),
    ("another verdict", "point", CYCLE, cert("point", 3, [empty((0, 1, 2))], "maybe"), FORM),
    ("no JSON text", "point", CYCLE, b"nodes 3\n", FORM),
    ("many brackets", "point", CYCLE, b"[" * 100_000, FORM),
    ("no key", "point", CYCLE, b"{}", FORM),
] + [(shows, word, data, APART, sentence, *drawn) for shows, word, data, sentence, *drawn in (
    ("no network", "rcc8", b"", NETWORK),
    ("no end line", "rcc8", b"nodes 3\n0 1 ( NTPP )\n1 2 ( TPP )\n", NETWORK),
    ("a line after the end line", "rcc8", net(3) + b"0 1 ( NTPP )\n", NETWORK),
    ("another line before the end line", "rcc8", net(3, "."), NETWORK),
    ("another calculus", "rcc8", CYCLE, NETWORK),
    ("no nodes", "rcc8", net(0), NETWORK),
    ("too many nodes", "rcc8", net(10 ** 17), NETWORK),
    ("a fact of one node", "rcc8", net(3, "1 1 ( )"), NETWORK),
    ("a node that isn't there", "rcc8", net(3, "0 3 ( )"), NETWORK),
    ("a set without its end", "rcc8", net(3, "0 1 ( EC"), NETWORK),
    ("one name too few", "rcc8", net(3, "names ( a b )", "a b ( )"), NETWORK),
    ("a name twice", "rcc8", net(3, "names ( a b a )", "a b ( )"), NETWORK),
    ("a polygon without a node", "rcc8", PLACES, NETWORK, b"b d 2FF1FF212 NTPP\n"),
    ("a network as a table", str(EXAMPLES / "guests.net"), GUESTS, "refused: the calculus isn't in the form of a table"),
)]

# what it shows, what of the table of friends is bent, and what stands there
BENT_TABLES = [
    ("a name twice", "names ( same", "names ( same same"),
    ("a name without converse", "names ( same", "names ( foes same"),
    ("a converse of a name that isn't there", "same :: same", "same :: same\nfoes :: foes"),
    ("a converse whose converse is another", "same :: same", "same :: friends"),
    ("no composition of two names", "friends : same :: ( friends )", ""),
    ("a composition of another name", "friends : same :: ( friends )", "friends : same :: ( foes )"),
    ("a line of another form", "friends : same :: ( friends )", "friends : same :: friends"),
]

# what it shows, the certificate, the steps of each node that are left
TRIMMED = [
    ("a step that nothing needs", cert("point", 4, [empty((0, 1, 2), (1, 2, 3), (0, 2, 3))]), [[[0, 1, 2], [0, 2, 3]]]),
    ("nothing to drop", cert("point", 4, [empty((0, 1, 2), (0, 2, 3))]), [[[0, 1, 2], [0, 2, 3]]]),
    ("what children rest on", SPLIT, [[[1, 2, 3]], [[0, 1, 3]], [[0, 1, 3]]]),
    ("what the parts rest on", cert("point", 4, [split(0, 1, [1], [1], [[0, 2, 1], [1, 3, 2]]), empty((0, 1, 3))]),
     [[[0, 2, 1]], [[0, 1, 3]]]),
    ("what the parts alone rest on", cert("point", 5, [split(0, 1, [1], [1], [[0, 2, 1], [1, 3, 2]]), empty((2, 3, 4))]),
     [[[0, 2, 1]], [[2, 3, 4]]]),
    ("a set that is narrowed twice", cert("rcc8", 5, [empty((0, 1, 2), (4, 1, 0), (2, 3, 0), (0, 2, 4))]),
     [[[0, 1, 2], [4, 1, 0], [2, 3, 0], [0, 2, 4]]]),
    ("a step too late", cert("rcc8", 5, [empty((0, 2, 4), (0, 1, 2), (0, 3, 4))]), [[[0, 2, 4], [0, 3, 4]]]),
    ("a leaf without steps", cert("point", 3, [split(0, 1, [1], [1], [[0, 1, 2]]), empty()]), [[[0, 1, 2]], []]),
    ("children one after another", cert("rcc8", 6, [
        split(0, 1, [1, 2], [1, 4], [[2, 3, 4], [1, 2, 5], [0, 1, 5]]), split(0, 2, [1, 2], [2, 3], [[3, 4, 5]]),
        empty((1, 3, 2)), empty((0, 2, 3)), empty((4, 5, 2), (0, 5, 2))]),
     [[[1, 2, 5], [0, 1, 5]], [], [[1, 3, 2]], [[0, 2, 3]], [[0, 5, 2]]]),
]

# what it shows, the bytes, why they aren't trimmed
REFUSED = [
    ("no bytes", b"", "this is no JSON text: Expecting value: line 1 column 1 (char 0)"),
    ("many brackets", b"[" * 100_000, "this is nested too deeply"),
    ("a list", b"[]", "this is no JSON object"),
    ("no verdict", b"{}", "verdict isn't \"yes\", \"no\" or \"budget\""),
    ("another version", cert("point", 3, [["empty"]], version=3), "version isn't 1 or 2"),
    ("257 nodes", cert("point", 257, [empty()]), "nodes isn't a number from 1 to 256"),
    ("no tree", cert("point", 3, None), "tree isn't a list of nodes"),
    ("a certificate without steps", cert("point", 3, [["empty"]], version=1),
     "this certificate lists no steps; what `trace` writes of it does"),
    ("a sweep", cert("point", 3, [["empty", "sweep"]]), "node 0 of the tree lists no steps"),
    ("an open leaf", cert("point", 3, [["open"]], "budget"), "node 0 of the tree is no split and no empty leaf"),
    ("a short node", cert("point", 3, [["empty"]]), "node 0 of the tree: empty has length 1"),
    ("a step of two nodes", cert("point", 3, [empty((0, 1, 2), (0, 1, 1))]),
     "node 0 of the tree: step 1 isn't of three different nodes"),
    ("an edge out of range", cert("point", 3, [split(1, 3, [7], [1], []), empty()]),
     "node 0 of the tree splits no edge of 3 nodes"),
    ("parts without children", cert("point", 3, [split(0, 1, [3, 4], [1], []), empty()]),
     "node 0 of the tree hasn't a child for each part"),
    ("a child out of order", cert("point", 3, [split(0, 1, [7], [2], []), empty(), empty()]),
     "node 0 of the tree: its children aren't those of preorder"),
    ("an empty tree", cert("point", 3, []), "the tree has no nodes"),
    ("a node under no split", cert("point", 3, [empty(), empty()]), "node 1 of the tree is a child of none"),
    ("a number beyond JSON", cert("point", 3, [empty()]).replace(b"{", b'{"other":1e999,', 1),
     "this is no JSON text: Out of range float values are not JSON compliant"),
]


def sentence(*inputs):
    """What check_trace.py writes."""
    return check_trace.answer(*inputs)[1]


def trimmed(data):
    """What trim_trace.py writes, or why it doesn't."""
    try:
        return trim_trace.trimmed(data)
    except trim_trace.Refused as fault:
        return str(fault)


def steps_of(data):
    return [node[-1] for node in json.loads(data)["tree"]]


def without_steps(data):
    """A certificate as it is but for the steps of its nodes."""
    value = json.loads(data)
    value["tree"] = [node[:-1] for node in value["tree"]]
    return value


def compositions(word):
    """The names of a calculus, its converses, and what each two base relations compose to."""
    calc = check_trace.calculus(word)
    one = {r: frozenset([r]) for r in calc.names}
    return calc.names, [calc.converse(one[r]) for r in calc.names], [calc.compose(one[r], one[s]) for r in one for s in one]


def worked():
    """The tests of worked certificates: what each shows, what was found, and what is expected."""
    for shows, word, data, certificate, wanted, *drawn in CHECKED:
        yield f"checked: {shows}", sentence(word, data, certificate, *drawn), wanted
    for shows, certificate, wanted in TRIMMED:
        found = trimmed(certificate)
        yield f"trimmed: {shows}", steps_of(found), wanted
        yield f"trimmed: {shows}, all else", without_steps(found), without_steps(certificate)
        yield f"trimmed again: {shows}", trimmed(found), found
    yield "trimmed: what is accepted", sentence("point", WEAK, trimmed(SPLIT)), ACCEPTED
    for shows, data, wanted in REFUSED:
        yield f"refused: {shows}", trimmed(data), wanted
    odd = b' {"verdict":"yes", "scenario":[0], "version":1, "nodes":2, "tree":[["found"]]}'
    yield "a yes stays as it is", trimmed(odd), odd
    yield "RCC-8 is its table", compositions("rcc8"), compositions(str(EXAMPLES / "rcc8.table"))
    yield "Allen's calculus is its table", compositions("allen"), compositions(str(EXAMPLES / "allen.table"))
    every = frozenset("<=>")
    wanted = [{"<"}, {"<"}, every, {"<"}, {"="}, {">"}, every, {">"}, {">"}]
    yield "points", compositions("point"), (["<", "=", ">"], [{">"}, {"="}, {"<"}], wanted)


# ---- certificates of the built program

# the network in examples, the calculus, the words of a search
SEARCHED = [("towns.net", "rcc8"), ("clash.net", "rcc8"), ("parts.net", "rcc8"), ("day.net", "allen"), ("letter.net", "point"),
            ("guests.net", FRIENDS), ("plan.net", "rcc8", "--polygons", str(EXAMPLES / "parcels.polygons"))]
# how many networks are made, the calculus, the nodes, how many base relations a set has, how many facts of ten are stated
GENERATED = [(8, "rcc8", 16, 4, 8), (6, "rcc8", 14, 4, 9), (10, "allen", 10, 5, 8), (6, "allen", 12, 6, 9),
             (10, FRIENDS, 7, 2, 9)]


def generated(draw, calculus, nodes, size, stated):
    """A network of sets that are drawn, without the identity of a table."""
    names = NAMES[calculus][1:] if calculus == FRIENDS else NAMES[calculus]
    pairs = [pair for pair in combinations(range(nodes), 2) if draw.randrange(10) < stated]
    return net(nodes, *(f"{i} {k} ( {' '.join(draw.sample(names, size))} )" for i, k in pairs))


class Built:
    """The built program, in a room for its files."""

    def __init__(self, program, room):
        self.program, self.room = program, pathlib.Path(room)

    def write(self, command, calculus, data, certificate=None, *words):
        """What the program writes to a command, of a certificate if there is one."""
        if certificate is not None:
            (self.room / "some.cert").write_bytes(certificate)
            words = (str(self.room / "some.cert"), *words)
        return subprocess.run([self.program, command, calculus, *words], input=data, capture_output=True).stdout

    def trace(self, calculus, data, *words):
        own = self.write("solve", calculus, data, None, "--cert", *words)
        return self.write("trace", calculus, data, own, *words)

    def relate(self, polygons):
        return subprocess.run([self.program, "relate", polygons], capture_output=True).stdout


def bent(draw, certificate):
    """What is bent of a refutation that the program traced, and the certificate, which shows nothing then."""
    value = json.loads(certificate)
    numbers = {kind: [x for x, node in enumerate(value["tree"]) if node[0] == kind] for kind in ("split", "empty")}

    def changed(kind, change):
        copy = json.loads(certificate)
        change(copy["tree"][draw.choice(numbers[kind])])
        return json.dumps(copy).encode()

    def put(place, found):
        """Puts into a node what is found from it."""
        return lambda node: node.__setitem__(place, found(node))

    yield "a leaf without its last step", changed("empty", lambda node: node[-1].pop())
    yield "a leaf that is open", changed("empty", put(slice(0, 2), lambda _: ["open"]))
    yield "a step out of range", changed("empty", put(1, lambda node: node[1] + [[0, 1, value["nodes"]]]))
    yield "a step of two nodes", changed("empty", put(1, lambda node: [[0, 1, 1]] + node[1]))
    if numbers["split"]:
        yield "a part less by a base relation", changed(
            "split", put(3, lambda node: [node[3][0] & node[3][0] - 1] + node[3][1:]))
        yield "a part that is left out", changed("split", lambda node: (node[3].pop(), node[4].pop()))
        yield "an edge out of range", changed("split", put(2, lambda _: value["nodes"]))
        yield "an edge the other way round", changed("split", put(slice(1, 3), lambda node: [node[2], node[1]]))
        yield "a child of another number", changed("split", put(4, lambda node: node[4][:-1] + [node[4][-1] + 1]))
        yield "a split that is called empty", changed("split", put(slice(0, 5), lambda _: ["empty"]))


def searched(built):
    """The networks that are searched, each with what it shows, its calculus, the lines of relations and further words."""
    for name, calculus, *words in SEARCHED:
        yield name, calculus, (EXAMPLES / name).read_bytes(), built.relate(words[1]) if words else b"", words
    for count, calculus, nodes, size, stated in GENERATED:
        for seed in range(count):
            draw = random.Random(seed)
            yield f"{pathlib.Path(calculus).stem} {seed}", calculus, generated(draw, calculus, nodes, size, stated), b"", []


def traced(built):
    """The tests of traces that the program writes."""
    count = dict.fromkeys(["yes", "no", "split", "shorter"], 0)
    for shows, calculus, data, drawn, words in searched(built):
        certificate = built.trace(calculus, data, *words)
        less = trimmed(certificate)
        verdict = json.loads(certificate)["verdict"]
        count[verdict] += 1
        count["shorter"] += less != certificate
        yield f"{shows}: its trace", sentence(calculus, data, certificate, drawn), ACCEPTED
        yield f"{shows}: trimmed", sentence(calculus, data, less, drawn), ACCEPTED
        yield f"{shows}: trimmed, by the program", built.write("check", calculus, data, less, *words), b"accepted\n"
        yield f"{shows}: trimmed again", trimmed(less), less
        if verdict == "yes":
            wrong = cert(calculus, json.loads(certificate)["nodes"], [empty(*[(0, 1, 2), (0, 2, 1), (1, 0, 2)] * 2)])
            yield f"{shows}: a leaf called empty", check_trace.answer(calculus, data, wrong, drawn)[0], 1
            continue
        yield f"{shows}: all else as it was", without_steps(less), without_steps(certificate)
        count["split"] += len(json.loads(certificate)["tree"]) > 1
        free = net(json.loads(certificate)["nodes"])
        yield f"{shows}: another network", check_trace.answer(calculus, free, certificate)[0], 1
        draw = random.Random(shows)
        for what, wrong in bent(draw, less):
            yield f"{shows}: {what}", check_trace.answer(calculus, data, wrong)[0], 1
            yield f"{shows}: {what}, by the program", built.write("check", calculus, data, wrong)[:12], b"not accepted"
    yield "some networks of each kind", {kind: number > 9 for kind, number in count.items()}, dict.fromkeys(count, True)


def tables(room):
    """The tests of bent tables."""
    path = pathlib.Path(room) / "bent.table"
    for shows, before, after in BENT_TABLES:
        path.write_text(pathlib.Path(FRIENDS).read_text().replace(before, after, 1))
        found = sentence(str(path), GUESTS, cert(FRIENDS, 3, [empty((0, 1, 2))]))
        yield f"a table with {shows}", found, "refused: the calculus isn't in the form of a table"


def runs(room):
    """The tests of the tools as they are run."""
    def run(tool, *words, data=b""):
        done = subprocess.run([sys.executable, TOOLS / tool, *words], input=data, capture_output=True)
        return done.returncode, done.stdout, done.stderr

    path = pathlib.Path(room) / "trace.cert"
    drawn = pathlib.Path(room) / "relations"
    path.write_bytes(APART)
    drawn.write_bytes(DRAWN)
    yield "run: accepted", run("check_trace.py", "rcc8", path, "--relations", drawn, data=PLACES), (0, b"accepted\n", b"")
    yield "run: not accepted", run("check_trace.py", "rcc8", path, data=PLACES), \
        (1, EMPTY_NOWHERE.encode() + b"\n", b"")
    yield "run: a refusal", run("check_trace.py", "allen", path, data=PLACES), \
        (2, b"", b"refused: the network isn't in its form, or the relations aren't\n")
    for words in (("nowhere", path), ("rcc8", "nowhere"), ("rcc8", path, "--relations", "nowhere")):
        yield "run: no file", run("check_trace.py", *words, data=PLACES), \
            (2, b"", b"refused: nowhere can't be read: No such file or directory\n")
    yield "run: no words", run("check_trace.py")[:2], (2, b"")
    path.write_bytes(SPLIT)
    yield "run: trimmed", run("trim_trace.py", path), (0, trimmed(SPLIT), b"")
    yield "run: trimmed from standard input", run("trim_trace.py", data=SPLIT), (0, trimmed(SPLIT), b"")
    yield "run: no trace", run("trim_trace.py", data=b"{}"), (1, b"", b"refused: verdict isn't \"yes\", \"no\" or \"budget\"\n")
    yield "run: nothing to trim", run("trim_trace.py", "nowhere"), \
        (1, b"", b"refused: nowhere can't be read: No such file or directory\n")


def cases(program, room):
    yield from worked()
    yield from tables(room)
    yield from runs(room)
    if program.exists():
        yield from traced(Built(program, room))


def main():
    program = pathlib.Path(sys.argv[1]) if sys.argv[1:] else PROGRAM
    skipped = 0 if program.exists() else len(SEARCHED) + sum(row[0] for row in GENERATED)
    count = failed = 0
    with tempfile.TemporaryDirectory() as room:
        for shows, found, expected in cases(program, room):
            count += 1
            if found != expected:
                failed += 1
                print(f"{shows}: {found!r} in place of {expected!r}")
    print(f"{count - failed} passed, {failed} failed, {skipped} skipped")
    return 1 if failed else 0


if __name__ == "__main__":
    sys.exit(main())
