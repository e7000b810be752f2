"""What is wrong with a line of an input of the program, in a sentence and with its place: for explain.py.

A line is looked at as docs/FORMATS.md says, in the order in which the program tests it, and its first fault is raised, with
the number that the program has for it. What only the program tells, as whether a ring crosses itself, isn't looked for here:
its refusal says so.
"""
import difflib
import re
import unicodedata
from collections import namedtuple
from itertools import islice

MOST_NODES, MOST_BASES, MOST_POLYGONS, MOST_VERTICES, MOST_COORDINATE = 256, 64, 128, 256, 100_000_000
LONGEST_LINE = 4096
# how many base relations are listed in a sentence
MOST_LISTED = 16

TOKEN = re.compile(r"::|[():,]|[^ \t():,]+")
NUMBER = re.compile(r"[0-9]{1,18}")
WHOLE = re.compile(r"[+-]?[0-9]{1,18}(\.0+)?")
DECIMAL = re.compile(r"[+-]?([0-9]+\.?[0-9]*|\.[0-9]+)([eE][+-]?[0-9]+)?")
END_LINE = re.compile(rb"(?m)^[ \t]*\.[ \t]*(#.*)?$")

Token = namedtuple("Token", "text start end")


class Fault(Exception):
    """What is wrong with a line: its number, a sentence, and from where to where it stands, maybe at several places."""

    def __init__(self, number, sentence, *spans):
        super().__init__(sentence)
        self.number, self.sentence, self.spans = number, sentence, spans


# ---- words

def near(word, choices):
    """The choice that a word is like, if there is one."""
    def plain(text):
        return text.lower().replace("-", "").replace("_", "")
    plains = {plain(choice): choice for choice in reversed(choices)}
    found = [plains[plain(word)]] if plain(word) in plains else [choice for choice in choices if choice.startswith(f"{word}.")]
    found += [plains[text] for text in difflib.get_close_matches(plain(word), list(plains), 1, 0.74)]
    return found[0] if found else None


def meant(word, choices):
    """A question after the choice that a word is like, or nothing."""
    found = near(word, choices)
    return f"; did you mean {found}?" if found else ""


def why_no_name(word):
    """Why a word can't be a name, or nothing where it can."""
    if word in ("(", ")", ",", ":", "::", "."):
        return f"'{word}' stands where a name has to be"
    if word[0].isdigit():
        return f"'{word}' can't be a name, which begins with no digit"
    if '"' in word or "\\" in word:
        return f"{word} can't be a name, which has no quotation marks and no backslashes"
    return f"'{word}' can't be a name, which has 64 letters at most" if len(word) > 64 else None


# ---- texts

class Line:
    """A line of a text, and what is read of it: its tokens up to the one that is next."""

    def __init__(self, number, data):
        self.number, self.data, self.next = number, data, 0
        self.part = data.decode("latin-1").partition("#")[0]
        self.tokens = [Token(match.group(), *match.span()) for match in TOKEN.finditer(self.part)]

    def peek(self):
        """The token that is next, or nothing."""
        return self.tokens[self.next].text if self.next < len(self.tokens) else None

    def span(self):
        """Where the token stands that is next, or where it would."""
        if self.next < len(self.tokens):
            return self.tokens[self.next][1:]
        end = len(self.part.rstrip(" \t\r"))
        return end, end + 1

    def whole(self):
        return (self.tokens[0].start, self.tokens[-1].end) if self.tokens else self.span()

    def take(self):
        self.next += 1
        return self.tokens[self.next - 1]

    def refuse(self, number, sentence, *spans):
        raise Fault(number, sentence, *(spans or (self.span(),)))

    def take_mark(self, form, mark, sentence):
        if self.peek() != mark:
            self.refuse(form, sentence)
        self.take()

    def take_word(self, form, kind):
        """The word that is next, of which a missing one is refused."""
        if self.peek() is None or self.peek() in ("(", ")", ",", ":", "::", "."):
            self.refuse(form, f"{kind} is missing here")
        return self.take()

    def take_name(self, form, kind):
        """The name that is next."""
        if self.peek() is None:
            self.refuse(form, f"{kind} is missing here")
        if why_no_name(self.peek()):
            self.refuse(form, why_no_name(self.peek()))
        return self.take()

    def take_names(self, form, example):
        """The names in brackets that are next."""
        self.take_mark(form, "(", f"here begin names in brackets, with blanks between, as in {example}")
        names = []
        while self.peek() != ")":
            if self.peek() is None:
                self.refuse(form, 'the bracket ")" is missing here')
            if self.peek() == ",":
                self.refuse(form, "between names are blanks, and no commas")
            names.append(self.take_name(form, "a name"))
        self.take()
        return names

    def end(self, form):
        if self.peek() == ".":
            self.refuse(form, 'the end line "." stands on a line of its own')
        if self.peek() is not None:
            self.refuse(form, f"'{self.peek()}' is more than the line may have")

    def look_at_bytes(self, form):
        """Refuses the first byte that isn't allowed."""
        match = re.search(r"[^\t -~]", self.part)
        if match:
            start = match.start()
            sentence, length = bad_byte(self.data, start, self.number)
            self.refuse(form, sentence, (start, start + length))


def bad_byte(data, start, number):
    """What a byte that isn't allowed says, and how many bytes belong to it."""
    if number == 1:
        for mark, name in ((b"\xef\xbb\xbf", "a byte order mark"), (b"\xff\xfe\0\0", "the byte order mark of UTF-32"),
                           (b"\xff\xfe", "the byte order mark of UTF-16"), (b"\xfe\xff", "the byte order mark of UTF-16")):
            if data.startswith(mark):
                told = " ".join(f"0x{byte:02X}" for byte in mark)
                return f"the file begins with {name}, the bytes {told}; save it as ASCII, or as UTF-8 without it", len(mark)
        if len(data) > 2 and (not any(data[1:8:2]) or not any(data[0:8:2])):
            return f"the byte 0x{data[start]:02X} at column {start + 1}: the file looks like UTF-16; save it as ASCII", 1
    byte = f"the byte 0x{data[start]:02X} at column {start + 1} isn't allowed"
    if data[start] == 13:
        return byte + ": it is a CR, which stands right before the LF of a line's end alone", 1
    for length in (2, 3, 4):
        try:
            letter = data[start:start + length].decode()
        except UnicodeDecodeError:
            continue
        if data[start] >= 0x80 and len(letter) == 1:
            name = f"'{letter}'" if letter.isprintable() else unicodedata.name(letter, "a character").lower()
            return byte + f", the first of {name}; outside comments are ASCII characters alone", length
    return byte + "; outside comments are ASCII characters alone", 1


class Text:
    """A text in lines, which end with LF; a CR before it is left out."""

    def __init__(self, data):
        parts = data.split(b"\n")
        last = parts.pop()
        self.data = data
        self.parts = [part[:-1] if part.endswith(b"\r") else part for part in parts] + ([last] if last else [])

    def line(self, number):
        return Line(number, self.parts[number - 1]) if 0 < number <= len(self.parts) else None

    def filled(self):
        """The lines that have tokens, in order."""
        return (line for line in (Line(k + 1, part) for k, part in enumerate(self.parts)) if line.tokens)

    def end_line(self, number):
        """The first end line before a line, or nothing."""
        before = b"\n".join(self.parts[:number - 1])
        match = END_LINE.search(before)
        return before.count(b"\n", 0, match.start()) + 1 if match else None


# ---- what is wrong with a line, in the order in which the program tests it

def no_relation(number, token, calculus, bases):
    question = meant(token.text, bases)
    listed = f"; there are {' '.join(bases)}" if not question and len(bases) <= MOST_LISTED else ""
    return Fault(number, f"'{token.text}' is no base relation of {calculus}{question}{listed}", token[1:])


def set_like(bases):
    """An example of a set."""
    return f"the set ( {' '.join(bases[:2] or 'AB')} )"


def look_at_relations(number, tokens, calculus, bases):
    for token in tokens:
        if bases and token.text not in bases:
            raise no_relation(number, token, calculus, bases)


def look_at_end(form, text, line):
    """Refuses a line after the end line, and an end line that has more than the dot."""
    end = text.end_line(line.number)
    if end:
        line.refuse(form, f'the text has ended with the "." of line {end}', line.whole())
    if line.peek() == ".":
        line.take()
        line.refuse(form, 'the end line is "." alone')


def looks_like(line):
    """What a first line is that doesn't begin as it has to."""
    words = [token.text for token in line.tokens]
    raw = line.data.lstrip().decode("latin-1").lower()
    if raw.startswith(("{", "[")):
        return "; this looks like JSON"
    if raw.startswith(("@prefix", "@base", "prefix ", "base ")):
        return "; this looks like Turtle"
    if raw.startswith("<?xml") or raw.startswith("<") and words[0] != "<":
        return "; this looks like XML or Turtle"
    if len(words) == 1 and NUMBER.fullmatch(words[0]):
        nodes = int(words[0]) + 1
        return f"; this looks like a file of GQR, which begins with its greatest node: here that is 'nodes {nodes}'"
    if words[0] == "(":
        return "; this looks like a list of SparQ"
    if len(words) > 1 and words[1].lower() == "polygon":
        return "; this looks like a polygon file"
    if words[0] in ("yes", "no", "budget") and len(words) == 2:
        return "; this looks like an answer of solve, of which a network may follow in the next line"
    if words[0] == "nodes":
        return "; this looks like a network file"
    return "; this looks like a table file" if words[0] == "names" and line.number == 1 else ""


def look_at_network(text, at, calculus, bases):
    """Line `at` of a network file."""
    line, header = text.line(at), list(islice(text.filled(), 2))
    line.look_at_bytes(18)
    if header[0].number == at:
        look_at_nodes(line)
        return
    nodes = int(header[0].tokens[1].text)
    has_names = len(header) > 1 and header[1].peek() == "names"
    if has_names and header[1].number == at:
        look_at_names(line, nodes)
        return
    look_at_end(18, text, line)
    look_at_fact(line, nodes, [t.text for t in header[1].tokens[2:-1]] if has_names else None, calculus, bases)


def look_at_nodes(line):
    if line.peek() != "nodes":
        line.refuse(18, f"a network begins with a line 'nodes N'{looks_like(line)}")
    line.take()
    if line.peek() is None or not NUMBER.fullmatch(line.peek()):
        line.refuse(18, "after 'nodes' stands a number from 1 to 256")
    nodes = line.take()
    line.end(18)
    if not 1 <= int(nodes.text) <= MOST_NODES:
        line.refuse(14, f"the number of nodes is {int(nodes.text)}, and isn't from 1 to {MOST_NODES}", nodes[1:])


def look_at_names(line, nodes):
    line.take()
    names = line.take_names(18, "names ( A B )")
    line.end(18)
    if len(names) != nodes:
        line.refuse(18, f"there are {nodes} nodes, and {len(names)} names", line.whole())
    for k, name in enumerate(names):
        if name.text in [before.text for before in names[:k]]:
            line.refuse(17, f"the name '{name.text}' stands twice", name[1:])


def take_node(line, names):
    if line.peek() in ("names", "nodes") and line.next == 0 and names is None:
        line.refuse(18, f"a line '{line.peek()}' comes at the beginning alone, 'nodes N' and then 'names ( A B .. )'")
    token = line.take_word(18, "a node, as in 0 1 ( A B ),")
    if not NUMBER.fullmatch(token.text):
        if names is None:
            line.refuse(18, f"'{token.text}' is no number, and without a line of names each node is one", token[1:])
        if why_no_name(token.text):
            line.refuse(18, why_no_name(token.text), token[1:])
    return token


def node_of(line, token, nodes, names):
    if not NUMBER.fullmatch(token.text):
        if token.text not in names:
            line.refuse(19, f"no node has the name '{token.text}'{meant(token.text, names)}", token[1:])
        return names.index(token.text)
    if int(token.text) >= nodes:
        line.refuse(15, f"there is no node {int(token.text)}: they are numbered from 0 to {nodes - 1}", token[1:])
    return int(token.text)


def look_at_fact(line, nodes, names, calculus, bases):
    pair = [take_node(line, names), take_node(line, names)]
    found = line.take_names(18, set_like(bases))
    line.end(18)
    i, j = (node_of(line, token, nodes, names) for token in pair)
    if i == j:
        line.refuse(16, f"'{pair[0].text}' and '{pair[1].text}' are one node, and a fact is of two", pair[1][1:])
    look_at_relations(19, found, calculus, bases)


def look_at_table(text, at, name):
    """Line `at` of a table file."""
    line = text.line(at)
    line.look_at_bytes(9)
    header = list(islice(text.filled(), 2))
    if header[0].number == at:
        if line.peek() != "names":
            line.refuse(9, f"a table of a calculus begins with a line 'names ( A B .. )'{looks_like(line)}")
        line.take()
        names = line.take_names(9, "names ( A B )")
        line.end(9)
        if not names:
            line.refuse(9, "there is no name, and a calculus has one base relation at least", line.whole())
        if len(names) > MOST_BASES:
            line.refuse(13, f"there are {len(names)} names, and {MOST_BASES} are allowed", names[MOST_BASES][1:])
        return
    bases = [token.text for token in header[0].tokens[2:-1]]
    look_at_end(9, text, line)
    if header[1].number == at:
        line.take_mark(9, "identity", "after the names comes a line 'identity N'")
        identity = line.take_name(9, "the name of the identity")
        line.end(9)
        look_at_relations(10, [identity], name, bases)
        return
    look_at_statement(text, line, name, bases)


def look_at_statement(text, line, name, bases):
    """A line `A :: B` or `A : B :: ( C D .. )`."""
    form = "'A :: B', the converse of A, or 'A : B :: ( C D .. )', the composition of A and B"
    tokens = [line.take_name(9, "a name")]
    if line.peek() == "::":
        line.take()
        tokens.append(line.take_name(9, "a name"))
    else:
        line.take_mark(9, ":", f"a line is {form}")
        tokens.append(line.take_name(9, "a name"))
        line.take_mark(9, "::", f"a line is {form}")
        tokens += line.take_names(9, "( A B )")
    line.end(9)
    look_at_relations(10, tokens, name, bases)
    side = left_side(line)
    for before in islice(text.filled(), 2, None):
        if before.number < line.number and left_side(before) == side:
            kind = "composition" if ":" in side else "converse"
            span = line.tokens[0].start, line.tokens[len(side) - 1].end
            line.refuse(12, f"line {before.number} has given this {kind} before", span)


def left_side(line):
    words = [token.text for token in line.tokens]
    return words[:words.index("::")] if "::" in words else None


def look_at_class(text, at, calculus, bases):
    """Line `at` of a class file."""
    line = text.line(at)
    line.look_at_bytes(21)
    look_at_end(21, text, line)
    found = line.take_names(21, set_like(bases))
    line.end(21)
    look_at_relations(21, found, calculus, bases)


def take_ring(line):
    """The points of a ring in brackets: of each its two numbers, and from where to where it stands."""
    line.take_mark(38, "(", "a ring stands in double brackets, as ((0 0, 9 0, 0 9, 0 0))")
    points = []
    while True:
        pair = [take_coordinate(line), take_coordinate(line)]
        points.append((tuple(int(token.text.split(".")[0]) for token in pair), (pair[0].start, pair[1].end)))
        if line.peek() == ")":
            line.take()
            return points
        if line.peek() is None:
            line.refuse(38, 'a bracket ")" is missing here')
        line.take_mark(38, ",", "a point has two numbers, and between points are commas")


def take_coordinate(line):
    token = line.take_word(38, "a whole number")
    if not WHOLE.fullmatch(token.text):
        how = "; tools/polygons_of.py makes whole numbers of decimals, by a scale" if DECIMAL.fullmatch(token.text) else ""
        line.refuse(38, f"'{token.text}' is no whole number of 18 digits at most{how}", token[1:])
    return token


def look_at_polygons(text, at, place):
    """Line `at` of a polygon file."""
    line, first = text.line(at), next(text.filled())
    if first.data.lstrip(b" \t\xef\xbb\xbf").startswith((b"{", b"[")):
        line.refuse(38, "this looks like JSON; tools/polygons_of.py makes a polygon file of GeoJSON")
    line.look_at_bytes(38)
    if line.peek().lower() in ("polygon", "multipolygon"):
        line.refuse(38, "a line begins with the name of its polygon, as park POLYGON ((0 0, 9 0, 0 9, 0 0))")
    name = line.take_name(38, "the name of the polygon")
    if (line.peek() or "").lower() != "polygon":
        line.refuse(38, f"after the name comes the word POLYGON{f', and not {line.peek()!r}' if line.peek() else ''}")
    line.take()
    line.take_mark(38, "(", "a ring stands in double brackets, as ((0 0, 9 0, 0 9, 0 0))")
    points = take_ring(line)
    hole = line.span() if line.peek() == "," else None
    while line.peek() == ",":
        line.take()
        take_ring(line)
    line.take_mark(38, ")", 'the second bracket ")" is missing here')
    line.end(38)
    if hole:
        line.refuse(39, f"{name.text} has a hole, a further ring after the first, and a polygon here has one ring", hole)
    before = [other for other in text.filled() if other.number < at]
    if len(before) >= MOST_POLYGONS:
        line.refuse(42, f"{name.text} is one polygon more than {MOST_POLYGONS}", name[1:])
    for other in before:
        if other.peek() == name.text:
            line.refuse(41, f"the polygon of line {other.number} has the name '{name.text}' too", name[1:])
    look_at_ring(line, name.text, points, place)


def look_at_ring(line, name, points, place):
    if points[0][0] != points[-1][0]:
        line.refuse(40, f"{name} ends at {told(points[-1])}, and not where it begins, at {told(points[0])}", points[-1][1])
    for k, point in enumerate(points):
        if max(map(abs, point[0])) > MOST_COORDINATE:
            line.refuse(34, f"{name} has a coordinate beyond {MOST_COORDINATE:,} in the point {told(point)}", point[1])
    vertices = [point for k, point in enumerate(points) if k == 0 or point[0] != points[k - 1][0]]
    count = max(1, len(vertices) - 1)
    if count < 3:
        line.refuse(33, f"{name} has {count} vertices, and a ring has 3 at least", (points[0][1][0], points[-1][1][1]))
    if count > MOST_VERTICES:
        line.refuse(36, f"{name} has {count} vertices, and a ring has {MOST_VERTICES} at most", vertices[MOST_VERTICES][1])
    if len(place) == 3 and max(place[1:]) < count:
        edges = [(vertices[e], vertices[e + 1]) for e in place[1:]]
        first, second = (f"from {told(a)} to {told(b)}" for a, b in edges)
        line.refuse(35, f"the ring of {name} isn't simple: its edge {first} meets that {second}",
                    *((a[1][0], b[1][1]) for a, b in edges))


def told(point):
    return "({} {})".format(*point[0])


def look_at_script(line, nodes, calculus, bases, number):
    """A line of a script of sessions; what shows only when its batch is run has the number that the program gave it."""
    if len(line.data) > LONGEST_LINE:
        line.refuse(48, f"the line has {len(line.data)} bytes, and {LONGEST_LINE} are allowed", line.whole())
    line.look_at_bytes(48)
    if line.peek() == "commit":
        line.take()
        line.refuse(48, "'commit' stands alone in its line")
    session = line.take_name(48, "the name of the session")
    kinds = ("assert", "peek", "withdraw", "ask")
    verb = line.take_word(48, "what the session does: assert, peek, withdraw or ask,")
    if verb.text not in kinds:
        question = meant(verb.text, kinds) or "; it is assert, peek, withdraw or ask"
        line.refuse(48, f"'{verb.text}' is nothing that a session does{question}", verb[1:])
    numbers = take_numbers(line, verb.text)
    found = line.take_names(48, set_like(bases)) if verb.text == "assert" else []
    line.end(48)
    if number in (44, 45, 46, 47):
        raise Fault(number, {
            44: f"there is no fact {numbers[0].text}, or not yet in the version before this batch",
            45: f"the fact {numbers[0].text} isn't {session.text}'s, and a session withdraws what is its own",
            46: f"version {numbers[0].text} isn't kept any more: the newest sixteen are",
            47: f"version {numbers[0].text} isn't made yet",
        }[number], numbers[0][1:])
    if number == 49:
        line.refuse(49, f"'{session.text}' is one session more than the 64 of a batch", session[1:])
    if verb.text != "withdraw":
        i, j = (node_of(line, token, nodes, []) for token in numbers[-2:])
        if i == j:
            line.refuse(16, "both nodes are the same", numbers[-1][1:])
    look_at_relations(19, found, calculus, bases)


def take_numbers(line, verb):
    """The numbers after what a session does: a fact's, or those of two nodes, before which `ask` may have a version."""
    numbers, most = [], {"withdraw": 1, "ask": 3}.get(verb, 2)
    least = min(most, 2)
    while len(numbers) < least or len(numbers) < most and line.peek() is not None:
        token = line.take_word(48, "the number of a fact" if verb == "withdraw" else "the number of a node")
        if not NUMBER.fullmatch(token.text):
            line.refuse(48, f"'{token.text}' is no number; in a script facts, nodes and versions are numbers", token[1:])
        numbers.append(token)
    return numbers
