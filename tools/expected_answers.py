#!/usr/bin/env python3
"""Answers what the program is asked, in a plain and slow way, and shares no code with it: the tests take from here what to expect.

Usage: tools/expected_answers.py close CALC < NETWORK
       tools/expected_answers.py solve CALC [--class C] [--polygons P] [--budget N] [--cert] < NETWORK
       tools/expected_answers.py intervals [--class C] [--budget N] < NETWORK
       tools/expected_answers.py minimal CALC [--class C] [--budget N] < NETWORK
       tools/expected_answers.py check CALC CERT [--polygons P] < NETWORK
       tools/expected_answers.py trace CALC CERT [--polygons P] < NETWORK
       tools/expected_answers.py relate P [--pattern T]
       tools/expected_answers.py scene P
       tools/expected_answers.py demo SEED NODES

It writes the bytes that the program has to write, and ends with its status. Nothing is fast here: a network is closed by
going through all triples until nothing changes, the matrix of two polygons is had by exact fractions
(expected_matrices.py), and searches, checks and traces follow the rules of docs/FORMATS.md word by word. RCC-8 and
Allen's calculus are read from the table files in examples. So it is for some twelve nodes, and polygons of few vertices.

Certificates, polygon files and patterns are refused as the program refuses them. Of tables, classes and networks the
form alone is looked at: one that isn't in the form, and a file that isn't there, end it with a sentence and status 70.
"""
import argparse
import json
import pathlib
import re
import sys

from expected_matrices import edges as edges_of_ring, matrix, meetings

EXAMPLES = pathlib.Path(__file__).resolve().parent.parent / "examples"
POINT = """names ( < = > )\nidentity =\n< :: >\n= :: =\n> :: <
< : < :: ( < )\n< : = :: ( < )\n< : > :: ( < = > )\n= : < :: ( < )\n= : = :: ( = )\n= : > :: ( > )
> : < :: ( < = > )\n> : = :: ( > )\n> : > :: ( > )\n.\n"""
MOST_NODES, MOST_BASES, MOST_POLYGONS, MOST_VERTICES, FAR = 256, 64, 128, 256, 100_000_000
DONE, NO, REFUSED, BUDGET, NOT_ACCEPTED, NO_ANSWER = 0, 1, 3, 7, 8, 70


class Refused(Exception):
    """A fault of an input: its number, and the numbers of its place."""


class NotAccepted(Exception):
    """A fault of what a certificate shows: its number, and the numbers of its place."""


# ---- tokens

TOKEN = re.compile(rb"::|[(),:]|[^\s(),:]+")
NAME = re.compile(rb'[^0-9"\\][^"\\]{0,63}\Z')


def is_name(word):
    return bool(NAME.match(word)) and word != b"."


def token_lines(data):
    """The number and the tokens of each line that has tokens, None in place of them where a byte isn't allowed."""
    lines = data.split(b"\n")
    for number, line in enumerate(lines, 1):
        shown, comment, _ = line.partition(b"#")
        if number < len(lines) and not comment and shown.endswith(b"\r"):
            shown = shown[:-1]
        if any(byte != 9 and not 32 <= byte <= 126 for byte in shown):
            yield number, None
        elif shown.strip(b" \t"):
            yield number, [token.decode() for token in TOKEN.findall(shown)]


def need(holds, sentence):
    if not holds:
        sys.stderr.write(f"no answer: {sentence}\n")
        sys.exit(NO_ANSWER)


def read_file(path):
    try:
        return pathlib.Path(path).read_bytes()
    except OSError as fault:
        need(False, fault)


def good_lines(data, what):
    """The tokens of the lines of a table, a class or a network, without the end line."""
    lines = [tokens for _, tokens in token_lines(data)]
    need(None not in lines and lines and lines[-1] == ["."], f"the {what} has another form")
    return lines[:-1]


# ---- calculi

class Calculus:
    """The names of base relations, the converse of each, and the word of each composition."""

    def __init__(self, data):
        lines = good_lines(data, "table")
        self.names = lines[0][2:-1]
        self.size = len(self.names)
        self.full = (1 << self.size) - 1
        self.converses, self.table, self.composed = {}, {}, {}
        for tokens in lines[2:]:
            if tokens[1] == "::":
                self.converses[self.names.index(tokens[0])] = self.names.index(tokens[2])
            else:
                self.table[self.names.index(tokens[0]), self.names.index(tokens[2])] = self.word(tokens[4:])

    def word(self, tokens):
        """The word of a set in brackets: bit r for base relation r."""
        need(tokens[0] == "(" and tokens[-1] == ")", "a set has no brackets")
        return sum(1 << r for r in {self.names.index(name) for name in tokens[1:-1]})

    def members(self, word):
        return [r for r in range(self.size) if word >> r & 1]

    def set_text(self, word):
        return "( " + "".join(f"{self.names[r]} " for r in self.members(word)) + ")"

    def converse(self, word):
        return sum(1 << self.converses[r] for r in self.members(word))

    def compose(self, a, b):
        if (a, b) not in self.composed:
            word = 0
            for r in self.members(a):
                for s in self.members(b):
                    word |= self.table[r, s]
            self.composed[a, b] = word
        return self.composed[a, b]


def calculus_of(word):
    built_in = {"rcc8": "rcc8.table", "allen": "allen.table"}
    if word == "point":
        return Calculus(POINT.encode())
    return Calculus(read_file(EXAMPLES / built_in[word] if word in built_in else word))


# ---- networks

class Network:
    """The names of the nodes, if they have any, and the word of each pair i < j."""

    def __init__(self, calculus, nodes, names=()):
        self.calculus, self.nodes, self.names = calculus, nodes, list(names)
        self.words = {(i, j): calculus.full for i in range(nodes) for j in range(i + 1, nodes)}

    def copy(self):
        other = Network(self.calculus, self.nodes, self.names)
        other.words = dict(self.words)
        return other

    def get(self, i, j):
        return self.words[i, j] if i < j else self.calculus.converse(self.words[j, i])

    def meet(self, i, j, word):
        """Meets the set of a pair with a set; whether it is less then."""
        before = self.get(i, j)
        if i < j:
            self.words[i, j] &= word
        else:
            self.words[j, i] &= self.calculus.converse(word)
        return self.get(i, j) != before

    def step(self, i, j, k):
        """Meets the set of (i, k) with what those of (i, j) and (j, k) compose to; whether it is less then."""
        return self.meet(i, k, self.calculus.compose(self.get(i, j), self.get(j, k)))

    def triples(self):
        """All triples, by the edge of the first and the third, then by the second."""
        return [(i, j, k) for i, k in self.words for j in range(self.nodes) if j not in (i, k)]

    def close(self):
        """Closes the network by all triples, again and again; the steps that made a set less, in their order."""
        steps, triples, changed = [], self.triples(), True
        while changed:
            made = [triple for triple in triples if self.step(*triple)]
            steps += made
            changed = bool(made)
        return steps

    def closed(self):
        other = self.copy()
        other.close()
        return other

    def met(self, edge, part):
        other = self.copy()
        other.words[edge] &= part
        return other

    def has_empty(self):
        return 0 in self.words.values()

    def text(self):
        lines = [f"nodes {self.nodes}"]
        if self.names:
            lines.append(f"names ( {' '.join(self.names)} )")
        lines += [f"{i} {j} {self.calculus.set_text(word)}" for (i, j), word in self.words.items()]
        return "\n".join(lines + [".", ""])


def read_network(data, calculus):
    lines = good_lines(data, "network")
    nodes, facts = int(lines[0][1]), lines[1:]
    names = []
    if facts and facts[0][0] == "names":
        names = facts.pop(0)[2:-1]
    net = Network(calculus, nodes, names)
    for tokens in facts:
        i, j = (int(token) if token.isdigit() else names.index(token) for token in tokens[:2])
        net.meet(i, j, calculus.word(tokens[2:]))
    return net


# ---- polygons

COORDINATE = re.compile(r"([+-]?\d{1,18})(\.0+)?\Z", re.ASCII)


class Form:
    """Takes a line of tokens apart."""

    def __init__(self, tokens):
        self.tokens = list(tokens)

    def take(self, token=None):
        """The next token, which is this one where one is named, and else a word."""
        if not self.tokens or (self.tokens[0] != token if token else self.tokens[0] in ("(", ")", ",", ":", "::")):
            raise ValueError
        return self.tokens.pop(0)

    def next_is(self, token):
        return self.tokens[:1] == [token]

    def coordinate(self):
        match = COORDINATE.match(self.take())
        if not match:
            raise ValueError
        return int(match.group(1))

    def ring(self):
        self.take("(")
        points = [(self.coordinate(), self.coordinate())]
        while not self.next_is(")"):
            self.take(",")
            points.append((self.coordinate(), self.coordinate()))
        self.take(")")
        return points

    def polygon(self):
        """The name, the points, and whether a further ring stands there."""
        name = self.take()
        if not is_name(name.encode()) or self.take().lower() != "polygon":
            raise ValueError
        self.take("(")
        rings = [self.ring()]
        while self.next_is(","):
            self.take(",")
            rings.append(self.ring())
        self.take(")")
        if self.tokens:
            raise ValueError
        return name, rings[0], len(rings) > 1


def meet_wrongly(rim, e, f):
    """Whether two edges meet otherwise than neighbours do at their common vertex."""
    allowed = {rim[f][0]} if f == e + 1 else set()
    if e == 0 and f == len(rim) - 1:
        allowed.add(rim[0][0])
    return not set(meetings(*rim[e], *rim[f])) <= allowed


def ring_of(line, points):
    """The vertices of a simple ring, or why the points are none."""
    for k, point in enumerate(points):
        if any(abs(c) > FAR for c in point):
            raise Refused(34, line, k)
    ring = [point for k, point in enumerate(points) if k == 0 or point != points[k - 1]]
    while len(ring) > 1 and ring[-1] == ring[0]:
        ring.pop()
    if len(ring) < 3:
        raise Refused(33, line)
    if len(ring) > MOST_VERTICES:
        raise Refused(36, line)
    rim = edges_of_ring(ring)
    for e in range(len(rim)):
        for f in range(e + 1, len(rim)):
            if meet_wrongly(rim, e, f):
                raise Refused(35, line, e, f)
    return ring


def read_polygons(data):
    """The names and rings of a polygon file."""
    found = []
    for line, tokens in token_lines(data):
        try:
            name, points, hole = Form(tokens or []).polygon()
        except ValueError:
            raise Refused(38, line) from None
        for wrong, number in ((hole, 39), (len(found) == MOST_POLYGONS, 42), (name in dict(found), 41), (points[0] != points[-1], 40)):
            if wrong:
                raise Refused(number, line)
        found.append((name, ring_of(line, points)))
    return found


def relation(m):
    """The name of the relation of RCC-8 that a matrix says."""
    ii, ie, bb, ei = m[0], m[2], m[4], m[6]
    if ii == "F":
        return "DC" if bb == "F" else "EC"
    if ie == "F":
        return "EQ" if ei == "F" else "NTPP" if bb == "F" else "TPP"
    if ei == "F":
        return "NTPPi" if bb == "F" else "TPPi"
    return "PO"


def pairs(found):
    return [(a, b) for k, a in enumerate(found) for b in found[k + 1:]]


def state_facts(net, polygons):
    """Meets the network with the facts of the polygons."""
    for at, (name, _) in enumerate(polygons):
        if name not in net.names:
            raise Refused(43, at)
    for (a, one), (b, two) in pairs(polygons):
        base = net.calculus.names.index(relation(matrix(one, two)))
        net.meet(net.names.index(a), net.names.index(b), 1 << base)


def read_pattern(text):
    """The nine letters of a pattern, or its first wrong place."""
    data = text.encode()
    for place, byte in enumerate(data[:9]):
        if byte not in b"TF*012":
            raise Refused(37, place)
    if len(data) != 9:
        raise Refused(37, min(len(data), 9))
    return text


def matches(m, pattern):
    return all(asked in ("*", entry) or (asked == "T" and entry != "F") for entry, asked in zip(m, pattern))


# ---- classes

def rcc8_class(word, calculus):
    """The members of a built-in class over RCC-8."""
    def has(s, names):
        return any(s >> calculus.names.index(name) & 1 for name in names.split())

    def is_hard(s):
        if not has(s, "PO") and has(s, "TPP NTPP") and has(s, "TPPi NTPPi"):
            return True
        return calculus.set_text(s) in {f"( {dc}EC {part} EQ )" for dc in ("", "DC ") for part in ("NTPP", "NTPPi")}

    def is_left_out(s):
        if word == "h8":
            return has(s, "EQ") and any(has(s, n) and not has(s, t) for t, n in (("TPP", "NTPP"), ("TPPi", "NTPPi")))
        if word == "c8":
            return has(s, "EC") and not has(s, "PO") and has(s, "TPP NTPP TPPi NTPPi EQ")
        return has(s, "EQ") and not has(s, "PO") and has(s, "TPP NTPP TPPi NTPPi")

    members = {s for s in range(1 << calculus.size) if not is_hard(s) and not is_left_out(s)}
    need(len(members) == {"h8": 148, "c8": 158, "q8": 160}[word], f"{word} has {len(members)} members")
    return members


def class_of(word, calculus):
    if word in ("h8", "c8", "q8"):
        return rcc8_class(word, calculus)
    if word == "none":
        return {0} | {1 << r for r in range(calculus.size)}
    return {0} | {calculus.word(tokens) for tokens in good_lines(read_file(word), "class")}


def parts_of(members, word):
    """The parts of a set: of what is left the greatest member, and among several the one with the least word."""
    parts = []
    while word:
        within = [m for m in members if m and m & ~word == 0]
        parts.append(min(within, key=lambda m: (-bin(m).count("1"), m)))
        word &= ~parts[-1]
    return parts


# ---- the search

class Search:
    """The tree of splits that a class and a budget rule."""

    def __init__(self, net, members, budget):
        self.members, self.budget = members, budget
        self.tree, self.splits, self.scenario, self.ended = [], 0, None, False
        self.grow(net.closed())
        self.verdict = "yes" if self.scenario else "budget" if self.ended else "no"

    def split_of(self, words):
        """The edge to split and its parts."""
        for edge, word in words.items():
            if word not in self.members:
                return edge, parts_of(self.members, word)
        edge = next(edge for edge, word in words.items() if word & (word - 1))
        return edge, [1 << r for r in range(words[edge].bit_length()) if words[edge] >> r & 1]

    def grow(self, net):
        """Adds the tree of a closed network."""
        if net.has_empty():
            self.tree.append(leaf("empty"))
        elif not any(word & (word - 1) for word in net.words.values()):
            self.tree.append(leaf("found"))
            self.scenario, self.ended = net, True
        elif self.splits == self.budget:
            self.tree.append(leaf("open"))
            self.ended = True
        else:
            self.split(net)

    def split(self, net):
        self.splits += 1
        edge, parts = self.split_of(net.words)
        node = {"kind": "split", "edge": edge, "parts": parts, "children": [], "steps": "sweep"}
        self.tree.append(node)
        for part in parts:
            node["children"].append(len(self.tree))
            if self.ended:
                self.tree.append(leaf("later"))
            else:
                self.grow(net.met(edge, part).closed())

    def certificate(self, net):
        cert = {"nodes": net.nodes, "relations": net.calculus.names, "verdict": self.verdict, "tree": self.tree}
        if self.scenario:
            cert["scenario"] = [word.bit_length() - 1 for word in self.scenario.words.values()]
        return certificate_text(cert)


def leaf(kind):
    return {"kind": kind, "steps": "sweep"}


# ---- schedules

# how the end points of two intervals compare in a base relation of Allen: the begin of the one with the begin and with the
# end of the other, and then its end with both
ALLEN = {"b": "<<<<", "m": "<<=<", "o": "<<><", "s": "=<><", "d": "><><", "f": "><>=", "eq": "=<>="}
TURNED = {"<": ">", "=": "=", ">": "<"}


def comparisons(name):
    """How the end points of two intervals in a base relation compare."""
    if name in ALLEN:
        return ALLEN[name]
    begins, begin_end, end_begin, ends = (TURNED[sign] for sign in ALLEN[name[:-1]])
    return begins + end_begin + begin_end + ends


def compared_points(scenario):
    """Two end points and the sign between them, for each two that the scenario compares, both ways round. Node i begins at the
    end point 2 i and ends at the next."""
    found = [(2 * i, 2 * i + 1, "<") for i in range(scenario.nodes)]
    for (i, j), word in scenario.words.items():
        (base,) = scenario.calculus.members(word)
        points = [(p, q) for p in (2 * i, 2 * i + 1) for q in (2 * j, 2 * j + 1)]
        found += [(p, q, sign) for (p, q), sign in zip(points, comparisons(scenario.calculus.names[base]))]
    return found + [(q, p, TURNED[sign]) for p, q, sign in found]


def ranks(scenario):
    """The rank of each end point: the length of the longest chain that leads up to it, as each class of equal end points is a
    link of it. So many rounds as there are end points make each chain whole."""
    compared, found = compared_points(scenario), [0] * (2 * scenario.nodes)
    for _ in found:
        for p, q, sign in compared:
            if sign != ">":
                found[q] = max(found[q], found[p] + (sign == "<"))
    signs = ["<=>"[(found[p] >= found[q]) + (found[p] > found[q])] for p, q, _ in compared]
    need(signs == [sign for _, _, sign in compared], "the end points of the scenario have no order")
    return found


def schedule_text(scenario):
    """A line for each node: its name or number, and the ranks of its end points."""
    found = ranks(scenario)
    names = scenario.names or range(scenario.nodes)
    return "".join(f"{name} {found[2 * i]} {found[2 * i + 1]}\n" for i, name in enumerate(names))


# ---- certificates

def node_json(node, version):
    found = [node["kind"]]
    if node["kind"] == "split":
        found += [*node["edge"], node["parts"], node["children"]]
    if version == 2 and node["kind"] in ("split", "empty"):
        found.append(node["steps"])
    return found


def certificate_text(cert):
    version = 1 if all(node["steps"] == "sweep" for node in cert["tree"]) else 2
    value = {"nodes": cert["nodes"], "relations": cert["relations"]}
    if cert["verdict"] == "yes":
        value["scenario"] = cert["scenario"]
    value.update(tree=[node_json(node, version) for node in cert["tree"]], verdict=cert["verdict"], version=version)
    return json.dumps(value, separators=(",", ":")) + "\n"


def is_whole(value, limit):
    return type(value) is int and 0 <= value < limit


def are_whole(value, limit):
    return isinstance(value, list) and all(is_whole(entry, limit) for entry in value)


def read_node(value, version):
    """A node of a tree, or None."""
    kind = value[0] if isinstance(value, list) and value else None
    if kind not in ("split", "empty", "found", "open", "later"):
        return None
    node = leaf(kind)
    has_steps = version == 2 and kind in ("split", "empty")
    if len(value) != (5 if kind == "split" else 1) + has_steps:
        return None
    if kind == "split":
        if not (are_whole(value[1:3], 1 << 32) and are_whole(value[3], 1 << 64) and are_whole(value[4], 1 << 32)):
            return None
        node.update(edge=tuple(value[1:3]), parts=value[3], children=value[4])
    if has_steps:
        steps = node["steps"] = value[-1]
        listed = isinstance(steps, list) and all(are_whole(step, 1 << 32) and len(step) == 3 for step in steps)
        if steps != "sweep" and not listed:
            return None
    return node


def first_wrong(entries, is_right):
    return next((k for k, entry in enumerate(entries) if not is_right(entry)), None)


def json_of(data):
    """The JSON value that bytes are."""
    def number(text):
        # a number with a sign isn't written with digits alone
        return float(text) if text.startswith("-") else int(text)

    def refuse(_):
        raise ValueError

    try:
        value = json.loads(data.decode("utf-8"), parse_int=number, parse_constant=refuse)
    except (ValueError, RecursionError):
        raise Refused(31) from None
    if depth(value) > 127:
        raise Refused(31)
    return value


def depth(value):
    """How many brackets stand round what is innermost; without recursion."""
    deepest, todo = 0, [(value, 1)]
    while todo:
        found, level = todo.pop()
        if isinstance(found, (list, dict)):
            deepest = max(deepest, level)
            todo += [(entry, level + 1) for entry in (found.values() if isinstance(found, dict) else found)]
    return deepest


def read_certificate(data):
    value = json_of(data)
    if not isinstance(value, dict):
        raise Refused(32, 0, 0)

    def entries_of(key, field, is_right):
        """The entries of a list, each of a right form."""
        found = value.get(key)
        if not isinstance(found, list):
            raise Refused(32, field, 0)
        wrong = first_wrong(found, is_right)
        if wrong is not None:
            raise Refused(32, field, wrong)
        return found

    version, nodes, verdict = (value.get(key) for key in ("version", "nodes", "verdict"))
    if not (is_whole(version, 3) and version > 0):
        raise Refused(32, 6, 0)
    if not (is_whole(nodes, MOST_NODES + 1) and nodes > 0):
        raise Refused(32, 1, 0)
    names = entries_of("relations", 2, lambda name: isinstance(name, str) and is_name_text(name))
    if not 0 < len(names) <= MOST_BASES:
        raise Refused(32, 2, 0)
    if verdict not in ("yes", "no", "budget"):
        raise Refused(32, 5, 0)
    cert = {"nodes": nodes, "relations": names, "verdict": verdict}
    if verdict == "yes":
        cert["scenario"] = entries_of("scenario", 3, lambda base: is_whole(base, 256))
    cert["tree"] = [read_node(node, version) for node in entries_of("tree", 4, lambda node: read_node(node, version))]
    return cert


def is_name_text(name):
    return all("!" <= letter <= "~" for letter in name) and not set(name) & set("(),:#") and is_name(name.encode())


# ---- checks

def check_scenario(net, bases):
    if len(bases) != len(net.words) or any(base >= net.calculus.size for base in bases):
        raise NotAccepted(27)
    base_of = dict(zip(net.words, bases))
    for (i, j), base in base_of.items():
        if not net.words[i, j] >> base & 1:
            raise NotAccepted(25, i, j)
    for i in range(net.nodes):
        for j in range(i + 1, net.nodes):
            for k in range(j + 1, net.nodes):
                if not net.calculus.table[base_of[i, j], base_of[j, k]] >> base_of[i, k] & 1:
                    raise NotAccepted(26, i, j, k)


def preorder(tree):
    """The children that each split has to list, by how many each lists, and the nodes that stand under another one."""
    wanted, under, open_splits = {}, {0}, []
    for x, node in enumerate(tree):
        while open_splits and open_splits[-1][1] == 0:
            open_splits.pop()
        if open_splits:
            above, left = open_splits[-1]
            open_splits[-1] = (above, left - 1)
            wanted[above].append(x)
            under.add(x)
        if node["kind"] == "split":
            wanted[x] = []
            open_splits.append((x, len(node["children"])))
    return wanted, under


def check_shape(nodes, tree):
    """The first pass."""
    if not tree:
        raise NotAccepted(30, 0)
    wanted, under = preorder(tree)
    for x, node in enumerate(tree):
        if x not in under:
            raise NotAccepted(30, x)
        if node["kind"] == "split":
            (i, j), children = node["edge"], node["children"]
            if len(node["parts"]) != len(children) or not children or not i < j < nodes or children != wanted[x]:
                raise NotAccepted(30, x)
        for at, step in enumerate([] if node["steps"] == "sweep" else node["steps"]):
            if len(set(step)) < 3 or max(step) >= nodes:
                raise NotAccepted(51, x, at)


def work(net, steps):
    """The network after the steps of a node."""
    if steps == "sweep":
        return net.closed()
    net = net.copy()
    for step in steps:
        net.step(*step)
    return net


def check_tree(net, tree):
    """The second pass, after the first."""
    check_shape(net.nodes, tree)
    networks = {0: net}
    for x, node in enumerate(tree):
        if node["kind"] in ("found", "open", "later"):
            raise NotAccepted(30, x)
        worked = work(networks.pop(x), node["steps"])
        if node["kind"] == "empty":
            if not worked.has_empty():
                raise NotAccepted(29, x)
            continue
        union = 0
        for part in node["parts"]:
            union |= part
        if worked.words[node["edge"]] & ~union:
            raise NotAccepted(28, x)
        for part, child in zip(node["parts"], node["children"]):
            networks[child] = worked.met(node["edge"], part)


def check(net, cert):
    if cert["nodes"] != net.nodes or cert["relations"] != net.calculus.names:
        raise NotAccepted(27)
    if cert["verdict"] == "yes":
        check_scenario(net, cert["scenario"])
    else:
        check_tree(net, cert["tree"])


def cut_steps(net):
    """The ruled steps up to the first that leaves an empty set; none where a set is empty."""
    steps, net = [], net.copy()
    while not net.has_empty():
        for triple in net.triples():
            if net.step(*triple):
                steps.append(triple)
                if net.has_empty():
                    break
    return steps


def traced(net, tree):
    """The tree with the ruled steps of each node."""
    networks, found = {0: net}, []
    for x, node in enumerate(tree):
        net = networks.pop(x)
        if node["kind"] == "empty":
            found.append({**node, "steps": cut_steps(net)})
            continue
        steps = net.close()
        found.append({**node, "steps": steps})
        for part, child in zip(node["parts"], node["children"]):
            networks[child] = net.met(node["edge"], part)
    return found


# ---- the demonstration

def demo_network(seed, nodes):
    """The network of rectangles that are drawn, and how many of their relations it has."""
    state = seed

    def draw(below):
        nonlocal state
        state = (1664525 * state + 1013904223) % 2 ** 32
        return state // 65536 % below

    rings = []
    for _ in range(nodes):
        x, y, wide, high = draw(100), draw(100), 1 + draw(40), 1 + draw(40)
        rings.append([(x, y), (x + wide, y), (x + wide, y + high), (x, y + high)])
    calculus = calculus_of("rcc8")
    net, kept = Network(calculus, nodes), 0
    for i, j in net.words:
        if draw(4):
            kept += 1
            net.words[i, j] = 1 << calculus.names.index(relation(matrix(rings[i], rings[j])))
    return net, kept


# ---- commands: what is written, and the status

STATUS = {"yes": DONE, "no": NO, "budget": BUDGET}


def close(words, source):
    net = read_network(source(), calculus_of(words.calculus)).closed()
    return net.text(), NO if net.has_empty() else DONE


def polygons_named(path):
    return read_polygons(read_file(path)) if path else []


def class_named(words, calculus):
    return class_of(words.guide or ("h8" if words.calculus == "rcc8" else "none"), calculus)


def solve(words, source):
    calculus = calculus_of(words.calculus)
    members = class_named(words, calculus)
    polygons = polygons_named(words.polygons)
    net = read_network(source(), calculus)
    state_facts(net, polygons)
    search = Search(net, members, words.budget)
    if words.cert:
        text = search.certificate(net)
    else:
        text = f"{search.verdict} {search.splits}\n" + (search.scenario.text() if search.scenario else "")
    return text, STATUS[search.verdict]


def intervals(words, source):
    calculus = calculus_of("allen")
    members = class_of(words.guide or "none", calculus)
    search = Search(read_network(source(), calculus), members, words.budget)
    text = f"{search.verdict} {search.splits}\n" + (schedule_text(search.scenario) if search.scenario else "")
    return text, STATUS[search.verdict]


def minimal(words, source):
    """Asks of each base relation of the closure whether a scenario has it at its edge, and drops those that none has."""
    calculus = calculus_of(words.calculus)
    members = class_named(words, calculus)
    net = read_network(source(), calculus)
    left, count = net.closed(), dict.fromkeys(STATUS, 0)
    for edge, word in list(left.words.items()):
        for base in calculus.members(word):
            verdict = Search(net.met(edge, 1 << base), members, words.budget).verdict
            count[verdict] += 1
            if verdict == "no":
                left.words[edge] ^= 1 << base
    status = NO if left.has_empty() else BUDGET if count["budget"] else DONE
    return f"labels {count['yes']} {count['no']} {count['budget']}\n{left.text()}", status


def checked(words, source):
    """The certificate, which is accepted, and its network."""
    calculus = calculus_of(words.calculus)
    cert = read_certificate(read_file(words.certificate))
    polygons = polygons_named(words.polygons)
    net = read_network(source(), calculus)
    state_facts(net, polygons)
    check(net, cert)
    return cert, net


def check_command(words, source):
    checked(words, source)
    return "accepted\n", DONE


def trace(words, source):
    cert, net = checked(words, source)
    if cert["verdict"] != "yes":
        cert["tree"] = traced(net, cert["tree"])
    return certificate_text(cert), DONE


def relate(words, _):
    polygons = read_polygons(read_file(words.polygons))
    pattern = "*********" if words.pattern is None else read_pattern(words.pattern)
    lines = []
    for (a, one), (b, two) in pairs(polygons):
        m = matrix(one, two)
        if matches(m, pattern):
            lines.append(f"{a} {b} {m} {relation(m)}\n")
    return "".join(lines), DONE


def scene(words, _):
    polygons = read_polygons(read_file(words.polygons))
    if not polygons:
        raise Refused(52)
    net = Network(calculus_of("rcc8"), len(polygons), [name for name, _ in polygons])
    state_facts(net, polygons)
    return net.text(), DONE


def demo(words, _):
    net, kept = demo_network(words.seed, words.nodes)
    bits = sum(bin(word).count("1") for word in net.closed().words.values())
    search = Search(net, rcc8_class("h8", net.calculus), 10_000)
    return (f"demo {words.seed} {words.nodes}\nkept {kept}\nbits {bits}\n{search.verdict} {search.splits}\n",
            STATUS[search.verdict])


def arguments():
    parser = argparse.ArgumentParser(description=__doc__, formatter_class=argparse.RawDescriptionHelpFormatter)
    commands = parser.add_subparsers(required=True)
    for answer, name, places, options in (
            (close, "close", "calculus", "workers"), (solve, "solve", "calculus", "class polygons budget cert workers"),
            (intervals, "intervals", "", "class budget workers"),
            (minimal, "minimal", "calculus", "class budget workers"),
            (check_command, "check", "calculus certificate", "polygons"), (trace, "trace", "calculus certificate", "polygons"),
            (relate, "relate", "polygons", "pattern"), (scene, "scene", "polygons", ""),
            (demo, "demo", "seed nodes", "")):
        command = commands.add_parser(name)
        command.set_defaults(answer=answer)
        for place in places.split():
            command.add_argument(place, type=int if place in ("seed", "nodes") else str)
        for option in options.split():
            if option == "cert":
                command.add_argument("--cert", action="store_true")
            elif option == "budget":
                command.add_argument("--budget", type=int, default=1000)
            else:
                command.add_argument(f"--{option}", dest="guide" if option == "class" else option)
    return parser.parse_args()


def main():
    sys.setrecursionlimit(100_000)
    words = arguments()
    try:
        text, status = words.answer(words, lambda: sys.stdin.buffer.read())
    except Refused as fault:
        text, status = " ".join(map(str, ("refused", *fault.args))) + "\n", REFUSED
    except NotAccepted as fault:
        text, status = " ".join(map(str, ("not accepted", *fault.args))) + "\n", NOT_ACCEPTED
    sys.stdout.write(text)
    return status


if __name__ == "__main__":
    sys.exit(main())
