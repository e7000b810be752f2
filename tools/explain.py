#!/usr/bin/env python3
"""Says what the program means by a refusal, and shows the line with a mark under the place; says which word of a command
isn't understood, and which input can't be read.

Usage: tools/explain.py STATUS ANSWER OFFSET NAME WORD.. < SOURCE

The script higwadel calls it at a terminal, after the program has ended. STATUS is the program's, ANSWER a file with what it
wrote, OFFSET where in its file standard input began, and NAME the name of that file where the words have it, else nothing.
Messages go to standard output. Where they don't say what the status means, the tool's own status is 1.

The program names a fault by its number and its line. Here that line is read once more, as docs/FORMATS.md has it. Where
that finds a fault of the same number, a sentence says which word is wrong; else the sentence of the number is said. It
stands alone where the source can't be read again, as what came through a pipe.
"""
import json
import os
import re
import stat
import sys
import unicodedata
from itertools import islice

from faulty_lines import NUMBER, Fault, Line, Text, meant, near
from faulty_lines import look_at_class, look_at_network, look_at_polygons, look_at_script, look_at_table

# The refusals of docs/FORMATS.md, and why a certificate isn't accepted: the number, the input, what each number of the
# place is, and what is wrong.
REFUSALS = """\
4|table|position|the name at this position, counted from 0, stands before it too
5|table|r|the converse of the converse of r is another base relation, or r is the identity and isn't its own converse
6|table|r|the identity composed with r, on one side, isn't r alone
7|table|r s t|t is in the composition of r and s, or its converse in that of the converses of s and r, and not both
8|table|r s t|t is in the composition of r and s, or r in that of t and the converse of s, and not both
9|table|line|the line has another form or a byte that isn't allowed, or the end line "." is missing before it
10|table|line|a word that is no base relation
11|table|r|no line gives the converse of r
11|table|r s|no line gives the composition of r and s
12|table|line|a converse or a composition that was given before
13|table|line|more than 64 names
14|network|line|the number of nodes isn't from 1 to 256
15|network|line|a node number that isn't below the number of nodes
15|script|line|a node number that isn't below the number of nodes
16|network|line|a fact of a node and itself
16|script|line|both nodes are the same
17|network|line|a name of a node stands twice
18|network|line|the line has another form, or a byte that isn't allowed
19|network|line|a name that is no base relation of CALC, or no node
19|script|line|a name that is no base relation of CALC
20|network|end|the end line "." is missing
21|class|line|no set of base relations, or the end line "." is missing before it
22|class|r|the base relation r isn't a member by itself
23|class|a b op|the class isn't closed under 1 the converse of a, 2 the intersection or 3 the composition of a and b, as words
24|class|line|one set more than a class may have members
25|certificate|i j|the scenario's relation of the node i to the node j isn't in the network's set
26|certificate|i j k|the scenario's relation of i to k isn't in the composition of those of i to j and of j to k
27|certificate||its nodes or its base relations aren't the network's, or its scenario hasn't one of them for each edge
28|certificate|node|the parts of this split leave out a base relation of its edge
29|certificate|node|this leaf says that a set is empty, and none is
30|certificate|node|this node has no place in a tree, or it shows nothing
31|certificate||this is no JSON text
32|certificate|key index|it isn't there, or it or its entry of this index, counted from 0, has another form
33|polygons|line|the ring has fewer than 3 vertices
34|polygons|line k|the point k, counted from 0, has a coordinate beyond 100,000,000
35|polygons|line e f|the edges e and f, counted from 0, meet where they may not, so that the ring isn't simple
36|polygons|line|the ring has more than 256 vertices
37|pattern|place|here, counted from 0, it isn't nine of T, F, *, 0, 1 and 2
38|polygons|line|the line has another form than NAME POLYGON ((X Y, ..)), or a byte that isn't allowed
39|polygons|line|a polygon with a hole
40|polygons|line|the last point isn't the first, so that the ring is open
41|polygons|line|a polygon before it has the same name
42|polygons|line|one polygon more than 128
43|polygons|polygon|no node of the network has the name of this polygon, counted from 0
44|script|line|no fact has the number that is withdrawn
45|script|line|the fact that is withdrawn is another session's
46|script|line|the version isn't kept any more: the newest sixteen are
47|script|line|the version isn't made yet
48|script|line|the line has another form, a byte that isn't allowed, or more than 4,096 bytes
49|script|line|one session more than the 64 of a batch
50|script|line|one command more than the 4,096 of a batch; those after it are passed over
51|certificate|node step|this step, counted from 0, isn't of three different nodes of the network
52|polygons||it has no polygon, and a scene has one at least
"""
# The words that each command takes, as docs/FORMATS.md has them, and the commands that read no source.
COMMANDS = {
    "close": "CALC [--workers N]",
    "solve": "CALC [--class C] [--polygons P] [--budget N] [--workers N] [--cert]",
    "intervals": "[--class C] [--budget N] [--workers N]",
    "minimal": "CALC [--class C] [--budget N] [--workers N]",
    "check": "CALC CERT [--polygons P]",
    "trace": "CALC CERT [--polygons P]",
    "relate": "P [--pattern T]",
    "scene": "P",
    "serve": "CALC NODES [--workers N]",
    "demo": "SEED NODES",
}
SOURCELESS = ("relate", "scene", "demo")
SCRIPT_WORDS = ("help", "--help", "--version", "--build", "--test", "--install")
MEANINGS = {"CALC": "a calculus", "CERT": "a certificate", "P": "a polygon file", "NODES": "the number of nodes",
            "SEED": "a seed"}
LIMITS = {"--workers": (1, 64), "--budget": (0, 10000), "SEED": (0, 4294967295), "NODES": (2, 256)}
BASES = {
    "rcc8": "DC EC PO TPP NTPP TPPi NTPPi EQ".split(),
    "allen": "b m o fi di s eq si d f oi mi bi".split(),
    "point": "< = >".split(),
}
RCC8_CLASSES = ("h8", "c8", "q8")
KEYS = ("the whole", "nodes", "relations", "scenario", "tree", "verdict", "version")
MOST_BYTES = 16_777_216
# how many lines of a script are told of, and how much of a line is shown
MOST_TOLD, WIDEST = 10, 100


# ---- words

class Asked:
    """What the words of a command say, and the first of them that isn't understood."""

    def __init__(self, words):
        self.words, self.command, self.fault = words, words[0] if words else "", None
        self.usage = COMMANDS.get(self.command, "")
        self.options = dict(re.findall(r"\[(--\w+) ?(\w*)\]", self.usage))
        self.kinds = re.sub(r"\[.*?\]", "", self.usage).split()
        self.places, self.given = [], {}
        self.read_command()
        rest = iter(words[1:])
        for word in rest:
            self.read_word(word, rest)
        self.count_places()
        self.test_values()

    def found(self, sentence):
        """Keeps what isn't understood first."""
        self.fault = self.fault or sentence

    def read_command(self):
        if not self.words:
            self.found(f"there is no command; there are {', '.join(COMMANDS)} and help")
        elif any("\udc80" <= c <= "\udcff" for word in self.words for c in word):
            self.found("a word isn't UTF-8")
        elif not self.usage:
            self.found(f"'{self.command}' is no command"
                       + (meant(self.command, [*COMMANDS, *SCRIPT_WORDS]) or f"; there are {', '.join(COMMANDS)} and help"))

    def read_word(self, word, rest):
        name, equals, value = word.partition("=")
        if not word.startswith("--") and word not in ("", "-") and word[0] != "-":
            self.places.append(word)
        elif not word.startswith("--") or word == "--":
            self.found(f"'{word}' is no word of a command{meant('-' + word, list(self.options))}")
        elif name not in self.options:
            self.found(f"'{name}' is no option of {self.command}"
                       + (meant(name, list(self.options)) or f"; it has {', '.join(self.options) or 'none'}"))
        else:
            self.read_option(name, equals, value, rest)

    def read_option(self, name, equals, value, rest):
        if name in self.given:
            self.found(f"{name} stands twice")
        if not self.options[name]:
            if equals:
                self.found(f"{name} has no value")
        elif not equals:
            value = next(rest, None)
            if not value or value.startswith("-"):
                self.found(f"{name} wants a value: {name} {self.options[name]}")
        self.given[name] = value or ""

    def count_places(self):
        missing, extra = self.kinds[len(self.places):], self.places[len(self.kinds):]
        if missing:
            self.found(f"{self.command} wants {MEANINGS[missing[0]]}: {self.command} {self.usage}")
        elif extra:
            reads = self.command not in SOURCELESS and not os.path.exists(extra[-1])
            self.found(f"'{extra[0]}' is one word more than {self.command} takes: {self.command} {self.usage}"
                       + (f"; no such file: {extra[-1]}{meant_file(extra[-1])}" if reads else ""))

    def test_values(self):
        for name, value in [*zip(self.kinds, self.places), *self.given.items()]:
            least, most = LIMITS.get(name, (None, None))
            if least is not None:
                least = 1 if (self.command, name) == ("serve", "NODES") else least
                if not NUMBER.fullmatch(value) or not least <= int(value) <= most:
                    kind = MEANINGS.get(name, name)
                    self.found(f"{kind} is a number from {least} to {most}, and not '{value}'")
        class_name, calculus = self.given.get("--class"), self.name("table")
        if class_name == "" or self.given.get("--polygons") == "":
            self.found("the name of a file is empty")
        if class_name in RCC8_CLASSES and calculus != "rcc8":
            self.found(f"the class {class_name} goes with rcc8 alone")
        if "--polygons" in self.given and calculus != "rcc8":
            self.found("--polygons goes with rcc8 alone")

    def name(self, kind):
        """The name that the words give an input. No word names the table of intervals, which is Allen's."""
        if (kind, self.command) == ("table", "intervals"):
            return "allen"
        place = {"table": "CALC", "certificate": "CERT", "polygons": "P"}.get(kind)
        if place in self.kinds:
            return next(islice(self.places, self.kinds.index(place), None), "")
        return self.given.get(f"--{kind}", "")

    def is_built_in(self, kind):
        name = self.name(kind)
        return kind == "table" and name in BASES or kind == "class" and name in (*RCC8_CLASSES, "none")

    def files(self):
        """The kind and the name of each input that is a file, in the order in which they are read."""
        kinds = ("table", "certificate", "class", "polygons")
        return [(kind, self.name(kind)) for kind in kinds if self.name(kind) and not self.is_built_in(kind)]

    def bases(self):
        """The base relations of the calculus, where they can be told."""
        name = self.name("table")
        if name in BASES:
            return BASES[name]
        text = text_of(name)
        line = next(text.filled(), None) if text else None
        return [token.text for token in line.tokens[1:] if token.text not in "()"] if line else []


# ---- texts

def text_of(name):
    """The text of a file, where it can be read again."""
    try:
        if not stat.S_ISREG(os.stat(name).st_mode) or os.path.getsize(name) > MOST_BYTES:
            return None
        with open(name, "rb") as file:
            return Text(file.read())
    except (OSError, ValueError):
        return None


class Source:
    """Standard input, which is read again where it is a file."""

    def __init__(self, offset, name):
        self.name = name
        try:
            self.mode = os.fstat(0)
        except OSError:
            self.mode = None
        self.text = None
        if self.mode and stat.S_ISREG(self.mode.st_mode):
            data = os.pread(0, MOST_BYTES + 1, offset)
            while data and len(data) < MOST_BYTES and (more := os.pread(0, MOST_BYTES, offset + len(data))):
                data += more
            self.text = Text(data)


def visible(letter):
    return letter if letter.isprintable() else " " if letter == "\t" else "?"


def shown(number, data, spans):
    """A line by its number, and marks under the spans of its bytes; of a long line the part round the first of them."""
    cells, at = [], 0
    for letter in data.decode("utf-8", "surrogateescape") + " ":
        is_marked = any(start <= at < end for start, end in spans)
        wide = 2 if unicodedata.east_asian_width(letter) in "WF" else 0 if unicodedata.combining(letter) else 1
        cells.append((visible(letter), ("^" if is_marked else " ") * wide))
        at += len(letter.encode("utf-8", "surrogateescape"))
    first = next((k for k, cell in enumerate(cells) if "^" in cell[1]), 0)
    start = max(0, min(first - WIDEST // 3, len(cells) - WIDEST))
    before, after = "..." if start else "", "..." if len(cells) > start + WIDEST else ""
    cells = cells[start:start + WIDEST]
    text = before + "".join(cell[0] for cell in cells).rstrip() + after
    marks = " " * len(before) + "".join(cell[1] for cell in cells)
    head = f"{number:>6}"
    return f"{head} | {text}" + (f"\n{'':>{len(head)}} | {marks.rstrip()}" if "^" in marks else "")


# ---- messages

def sentence_of(number, count, script=False):
    """The input that a refusal is of, what the numbers of its place are, and what is wrong."""
    for row in REFUSALS.splitlines():
        its_number, kind, place, sentence = row.split("|")
        if int(its_number) == number and len(place.split()) == count and script == (kind == "script"):
            return kind, place.split(), sentence
    return None


def place_told(kinds, place, bases):
    """The numbers of a place in words."""
    for kind, value in zip(kinds, place):
        if kind == "end":
            yield f"after line {value}"
        elif kind in ("line", "position", "node", "step", "index", "place", "polygon"):
            yield f"{kind} {value}"
        elif kind == "key":
            yield KEYS[value] if value < len(KEYS) else str(value)
        elif kind in "rst":
            yield f"{kind} = {bases[value] if value < len(bases) else value}"
        else:
            yield f"{kind} = {value}"


def fault_of(number, look, *arguments):
    """What is found wrong, where it has this number. A text that was changed since may be anything."""
    try:
        look(*arguments)
    except Fault as fault:
        return fault if fault.number == number else None
    except (IndexError, ValueError):
        pass
    return None


def json_fault(text):
    """The line at which a text is no JSON, and what is wrong there."""
    try:
        json.loads(text.data.decode())
    except json.JSONDecodeError as fault:
        start = len(fault.doc[:fault.pos].encode())
        said = "this is no JSON text from line {}, column {} on"
    except UnicodeDecodeError as fault:
        start = fault.start
        said = f"this is no JSON text: the byte 0x{text.data[start]:02X} at line {{}}, column {{}} isn't UTF-8"
    except (ValueError, RecursionError):
        return None, None
    else:
        return None, None
    number, column = text.data.count(b"\n", 0, start) + 1, start - text.data.rfind(b"\n", 0, start)
    return number, Fault(31, said.format(number, column), (column - 1, column))


def named_fault(text, number, place):
    """The line and the fault of a refusal that names something by its position: a base relation, or a polygon."""
    line = next(islice(text.filled(), place[0] if number == 43 else 0, None), None)
    at = 0 if number == 43 else place[0] + 2
    if line is None or at >= len(line.tokens) or line.tokens[at].text in "()":
        return None, None
    token = line.tokens[at]
    said = f"the name '{token.text}' stands twice" if number == 4 else f"no node of the network has its name '{token.text}'"
    return line.number, Fault(number, said, token[1:])


def line_fault(text, number, kind, place, asked):
    """The line that a refusal names, and what is wrong with it, as far as they are found."""
    at, calculus, bases = place[0] if place else 0, asked.name("table"), asked.bases()
    if number in (9, 21) and at == len(text.parts) + 1:
        return None, Fault(number, 'the end line "." is missing')
    if number == 31:
        return json_fault(text)
    if number in (4, 43):
        return named_fault(text, number, place)
    if number == 20 and not text.parts:
        return None, Fault(20, "the network is empty; it begins with a line 'nodes N' and ends with a line \".\"")
    if not (text.line(at) and text.line(at).tokens):
        return None, None
    look = {
        "network": (look_at_network, text, at, calculus, bases),
        "table": (look_at_table, text, at, calculus),
        "class": (look_at_class, text, at, calculus, bases),
        "polygons": (look_at_polygons, text, at, place),
    }[kind]
    return at, fault_of(number, *look)


def refusal(number, place, asked, source):
    """What a refusal means: the sentence, and the line where there is one."""
    found = sentence_of(number, len(place))
    if not found:
        return []
    kind, kinds, sentence = found
    where = list(place_told(kinds, place, asked.bases()))
    name = source.name if kind == "network" else asked.name(kind)
    if kind == "pattern":
        marked = shown("", name.encode("utf-8", "surrogateescape"), [(place[0], place[0] + 1)])
        return [f"{name or 'the pattern'}, {where[0]}: {sentence}\n{marked}"]
    text = source.text if kind == "network" else None if asked.is_built_in(kind) else text_of(name)
    at = fault = line = None
    if text and (kinds[:1] == ["line"] or number in (4, 20, 31, 43)):
        at, fault = line_fault(text, number, kind, place, asked)
        line = text.line(at) if at else None
    said = fault.sentence if fault else sentence.replace("CALC", asked.name("table"))
    head = ", ".join(([name] if name else []) + where)
    return [message(head, said, line, fault)]


def message(where, sentence, line, fault):
    """What is said of a place, with the line where there is one."""
    return f"{where}: {sentence}" + (f"\n{shown(line.number, line.data, fault.spans if fault else ())}" if line else "")


def batch_starts(text):
    """The numbers of the lines with which the batches of a script begin."""
    starts = [1]
    for number, part in enumerate(text.parts, 1):
        if b"commit" in part:
            line = Line(number, part)
            if [token.text for token in line.tokens] == ["commit"]:
                starts.append(number + 1)
    return starts


def script_refusals(answer):
    """The batch, the line in it and the number of each reply that refuses a line."""
    batch = 1
    for reply in answer:
        words = reply.split()
        if len(words) == 4 and (words[0], words[2]) == (b"line", b"refused"):
            yield batch, int(words[1]), int(words[3])
        elif len(words) == 3 and words[0] == b"version" and words[2] in (b"closed", b"empty") and words[1].isdigit():
            batch += 1


def script_messages(answer, asked, source):
    """What the refusals in the replies to a script mean, of the first of them by the lines of the script."""
    calculus, bases, messages, count = asked.name("table"), asked.bases(), [], 0
    starts = batch_starts(source.text) if source.text else []
    for batch, at, number in script_refusals(answer):
        count += 1
        found = sentence_of(number, 1, script=True)
        if count > MOST_TOLD or not found:
            continue
        line = source.text.line(starts[batch - 1] + at - 1) if batch <= len(starts) else None
        where = [source.name] if source.name else []
        where += [f"line {line.number}"] if line else []
        where += [f"line {at} of batch {batch}"] if not line or batch > 1 else []
        fault = line and fault_of(number, look_at_script, line, int(asked.places[1]), calculus, bases, number)
        said = fault.sentence if fault else found[2].replace("CALC", calculus)
        messages.append(message(", ".join(where), said, line, fault))
    if count > MOST_TOLD:
        messages.append(f"{count - MOST_TOLD} more lines were refused")
    return messages


def meant_file(name):
    """A question after the file in the same folder that a name is like, or nothing."""
    folder, base = os.path.split(name)
    found = near(base, sorted(os.listdir(folder or "."))) if base and os.path.isdir(folder or ".") else None
    return f"; did you mean {os.path.join(folder, found)}?" if found else ""


def no_file(asked, kind, name):
    """What is said of a file that isn't there: what it may have been meant to be, too."""
    classes = [*(RCC8_CLASSES if asked.name("table") == "rcc8" else ()), "none"]
    choices = {"table": list(BASES), "class": classes}.get(kind, [])
    listed = " or ".join(([", ".join(choices[:-1])] if choices[1:] else []) + choices[-1:])
    built_in = f"no {'calculus' if kind == 'table' else kind} {listed}, and " if choices else ""
    return f"{built_in}no such file: {name}{meant(name, choices) or meant_file(name)}"


def unread(asked, source):
    """Which input can't be read, if that is to be seen."""
    for kind, name in asked.files():
        if not os.path.exists(name):
            return no_file(asked, kind, name)
        if os.path.isdir(name) or not os.access(name, os.R_OK):
            return f"{name} is a folder, and no file" if os.path.isdir(name) else f"{name} can't be read"
    if asked.command in SOURCELESS:
        return None
    is_folder = source.mode and stat.S_ISDIR(source.mode.st_mode)
    return (source.name or "standard input") + (" is a folder, and no file" if is_folder else " can't be read")


def too_long(asked, source):
    """Which input has too many bytes, if that is to be seen."""
    for _, name in asked.files():
        if os.path.isfile(name) and os.path.getsize(name) > MOST_BYTES:
            return f"{name} has more than {MOST_BYTES:,} bytes"
    return None if asked.command in SOURCELESS else f"{source.name or 'standard input'} has more than {MOST_BYTES:,} bytes"


def open_labels(count):
    """What a spent budget means for so many base relations of a network that minimal writes."""
    which, whose = ("base relation is", "its search") if count == 1 else ("base relations are", "their searches")
    return f"{count} {which} open: the budget of splits was spent before {whose} ended"


def status_messages(status, answer, asked, source):
    """What says why the program ended with this status, or nothing."""
    if status in (2, 4, 9):
        said = asked.fault if status == 2 else unread(asked, source) if status == 4 else too_long(asked, source)
        return [said] if said else []
    words = answer.readline().split()
    if status == 7 and asked.command == "minimal" and len(words) == 4 and words[3].isdigit():
        return [open_labels(int(words[3]))]
    begins = {3: [b"refused"], 8: [b"not", b"accepted"]}.get(status)
    if not begins or words[:len(begins)] != begins:
        return []
    number, *place = (int(word) for word in words[len(begins):])
    return refusal(number, place, asked, source)


def main():
    status, answer_name, offset, name, *words = sys.argv[1:]
    asked, source = Asked(words), Source(int(offset), name)
    with open(answer_name, "rb") as answer:
        replies = script_messages(answer, asked, source) if asked.command == "serve" and status != "3" else []
    with open(answer_name, "rb") as answer:
        messages = status_messages(int(status), answer, asked, source)
    for said in replies + messages:
        text = "\n".join("".join(map(visible, line)) for line in said.split("\n"))
        sys.stdout.buffer.write(f"higwadel: {text}\n".encode("utf-8", "replace"))
    return 0 if messages or status == "0" else 1


if __name__ == "__main__":
    sys.exit(main())
