#!/usr/bin/env python3
"""Tests of explain.py. The last line is 'N passed, N failed'.

Usage: tools/test_explain.py
"""
import io
import os
import pathlib
import re
import subprocess
import sys
import tempfile

from explain import COMMANDS, Asked, Source, refusal, script_messages, shown, status_messages, too_long, unread

TOOL = pathlib.Path(__file__).resolve().parent / "explain.py"
FORMATS = TOOL.parent.parent / "docs" / "FORMATS.md"
# the words, and what isn't understood of them
WORDS = [
    ("", "there is no command; there are close, solve, intervals, minimal, check, trace, relate, scene, serve, demo and help"),
    ("sovle rcc8", "'sovle' is no command; did you mean solve?"),
    ("-help", "'-help' is no command; did you mean help?"),
    ("draw x", "'draw' is no command; there are close, solve, intervals, minimal, check, trace, relate, scene, serve, demo and help"),
    ("close", "close wants a calculus: close CALC [--workers N]"),
    ("check rcc8", "check wants a certificate: check CALC CERT [--polygons P]"),
    ("close rcc8 --worker 4", "'--worker' is no option of close; did you mean --workers?"),
    ("close rcc8 -workers 4", "'-workers' is no word of a command; did you mean --workers?"),
    ("scene p --cert", "'--cert' is no option of scene; it has none"),
    ("close rcc8 --budget 4", "'--budget' is no option of close; it has --workers"),
    ("close rcc8 --workers", "--workers wants a value: --workers N"),
    ("close rcc8 --workers 2 --workers=3", "--workers stands twice"),
    ("solve rcc8 --cert=yes", "--cert has no value"),
    ("solve rcc8 --budget 20000", "--budget is a number from 0 to 10000, and not '20000'"),
    ("close rcc8 --workers=0", "--workers is a number from 1 to 64, and not '0'"),
    ("serve rcc8 0", "the number of nodes is a number from 1 to 256, and not '0'"),
    ("demo 7 1", "the number of nodes is a number from 2 to 256, and not '1'"),
    ("demo x 4", "a seed is a number from 0 to 4294967295, and not 'x'"),
    ("solve allen --class h8", "the class h8 goes with rcc8 alone"),
    ("solve allen --polygons p", "--polygons goes with rcc8 alone"),
    ("solve rcc8 --class=", "the name of a file is empty"),
    ("close rcc8 no.net", "'no.net' is one word more than close takes: close CALC [--workers N]; no such file: no.net"),
    ("close rcc8 a.ne", "'a.ne' is one word more than close takes: close CALC [--workers N]; no such file: a.ne; "
     "did you mean a.net?"),
    ("minimal --class h8", "minimal wants a calculus: minimal CALC [--class C] [--budget N] [--workers N]"),
    ("minimal rcc8 --cert", "'--cert' is no option of minimal; it has --class, --budget, --workers"),
    ("minimal rcc8 --budget 10001", "--budget is a number from 0 to 10000, and not '10001'"),
    ("minimal allen --class=q8", "the class q8 goes with rcc8 alone"),
    ("relate p x", "'x' is one word more than relate takes: relate P [--pattern T]"),
    ("close rcc8 -", "'-' is no word of a command"),
    ("close rcc8", None),
    ("solve rcc8 --class h8 --polygons=p --budget 0 --workers 64 --cert", None),
    ("intervals --class none", None),
    ("minimal rcc8 --class c8 --budget=10000 --workers 1", None),
    ("check --polygons p rcc8 c", None),
    ("relate p --pattern=-", None),
    ("serve rcc8 1", None),
    ("demo 4294967295 256", None),
]

# The place of the refusal, the words, the text, in which | ends a line and ‹› stand round what is marked, and what is said.
# The text is that of the source, or of the file own where the words name it. A line without a mark is shown where ‹› is in it.
LINES = [
    ("19 3", "close rcc8", "nodes 2|names ( a b )|a b ( ‹ntpp› )|.",
     "line 3: 'ntpp' is no base relation of rcc8; did you mean NTPP?"),
    ("19 2", "close allen", "nodes 2|0 1 ( b ‹XX› )|.",
     "line 2: 'XX' is no base relation of allen; there are b m o fi di s eq si d f oi mi bi"),
    ("19 3", "close rcc8", "nodes 2|names ( mill inn )|‹mil› inn ( EC )|.",
     "line 3: no node has the name 'mil'; did you mean mill?"),
    ("14 1", "close rcc8", "nodes ‹300›|.",
     "line 1: the number of nodes is 300, and isn't from 1 to 256"),
    ("15 2", "close rcc8", "nodes 3|0 ‹7› ( EC )|.",
     "line 2: there is no node 7: they are numbered from 0 to 2"),
    ("16 3", "close rcc8", "nodes 2|names ( a b )|a ‹0› ( EC )|.",
     "line 3: 'a' and '0' are one node, and a fact is of two"),
    ("17 2", "close rcc8", "nodes 2|names ( a ‹a› )|.",
     "line 2: the name 'a' stands twice"),
    ("20 2", "close rcc8", "nodes 2|‹›0 1 ( EC )",
     "after line 2: the end line \".\" is missing"),
    ("18 1", "close rcc8", "‹\xef\xbb\xbf›nodes 2|.",
     "line 1: the file begins with a byte order mark, the bytes 0xEF 0xBB 0xBF; save it as ASCII, or as UTF-8 without it"),
    ("18 1", "close rcc8", "‹\xff\xfe›n\0o\0d\0e\0",
     "line 1: the file begins with the byte order mark of UTF-16, the bytes 0xFF 0xFE; save it as ASCII, or as "
     "UTF-8 without it"),
    ("18 1", "close rcc8", "n‹\0›o\0d\0e\0s\0",
     "line 1: the byte 0x00 at column 2: the file looks like UTF-16; save it as ASCII"),
    ("18 2", "close rcc8", "nodes 1|names ( M‹\xc3\xbc›hle )|.",
     "line 2: the byte 0xC3 at column 10 isn't allowed, the first of 'ü'; outside comments are ASCII characters alone"),
    ("18 2", "close rcc8", "nodes 2|0 1‹\xc2\xa0›( EC )|.",
     "line 2: the byte 0xC2 at column 4 isn't allowed, the first of no-break space; outside comments are ASCII "
     "characters alone"),
    ("18 1", "close rcc8", "nodes 2‹\r›.\r",
     "line 1: the byte 0x0D at column 8 isn't allowed: it is a CR, which stands right before the LF of a line's end alone"),
    ("18 2", "close rcc8", "nodes 4|‹names ( a b c )›|.",
     "line 2: there are 4 nodes, and 3 names"),
    ("18 2", "close rcc8", "nodes 1|names ( ‹\"a\"› )|.",
     "line 2: \"a\" can't be a name, which has no quotation marks and no backslashes"),
    ("18 2", "close rcc8", "nodes 2|‹a› b ( EC )|.",
     "line 2: 'a' is no number, and without a line of names each node is one"),
    ("18 2", "close rcc8", "nodes 2|0 1 ‹EC›|.",
     "line 2: here begin names in brackets, with blanks between, as in the set ( DC EC )"),
    ("18 2", "close rcc8", "nodes 2|0 1 ( EC‹,› DC )|.",
     "line 2: between names are blanks, and no commas"),
    ("18 2", "close rcc8", "nodes 2|0 1 ( EC‹ ›# )|.",
     "line 2: the bracket \")\" is missing here"),
    ("18 2", "close rcc8", "nodes 2|0 1 ( EC ) ‹.›|.",
     "line 2: the end line \".\" stands on a line of its own"),
    ("18 4", "close rcc8", "nodes 2# a.b|.|# end|‹0 1 ( EC )›",
     "line 4: the text has ended with the \".\" of line 2"),
    ("18 1", "close rcc8", "‹29› # a graph|.",
     "line 1: a network begins with a line 'nodes N'; this looks like a file of GQR, which begins with its "
     "greatest node: here that is 'nodes 30'"),
    ("18 1", "close rcc8", "‹@prefix› a: <b> .",
     "line 1: a network begins with a line 'nodes N'; this looks like Turtle"),
    ("9 1", "close own", "‹nodes› 2|.",
     "own, line 1: a table of a calculus begins with a line 'names ( A B .. )'; this looks like a network file"),
    ("9 9", "close own",
     "names ( a b )|identity a|a :: a|b :: b|a : a :: ( a )|a : b :: ( b )|b : a :: ( b )|b : b :: ( a b )|",
     "own, line 9: the end line \".\" is missing"),
    ("10 3", "close own",
     "names ( a b )|identity a|a :: ‹A›|b :: b|a : a :: ( a )|a : b :: ( b )|b : a :: ( b )|b : b :: ( a b )|.",
     "own, line 3: 'A' is no base relation of own; did you mean a?"),
    ("12 4", "close own",
     "names ( a b )|identity a|a :: a|‹a› :: b|a : a :: ( a )|a : b :: ( b )|b : a :: ( b )|b : b :: ( a b )|.",
     "own, line 4: line 3 has given this converse before"),
    ("4 1", "close own", "names ( a ‹a› )|",
     "own, position 1: the name 'a' stands twice"),
    ("11 1", "close own", "names ( a b )|identity a|a :: a|a : a :: ( a )|a : b :: ( b )|b : a :: ( b )|b : b :: ( a b )|.",
     "own, r = b: no line gives the converse of r"),
    ("21 2", "solve point --class own", "( < )|( ‹<=› )|.",
     "own, line 2: '<=' is no base relation of point; there are < = >"),
    ("31", "check rcc8 own", "{\"nodes\":2,‹}›",
     "own: this is no JSON text from line 1, column 12 on"),
    ("31", "check rcc8 own", "{|\"‹\xff›\"}",
     "own: this is no JSON text: the byte 0xFF at line 2, column 2 isn't UTF-8"),
    ("35 2 0 2", "relate own", "# a|bow POLYGON ((‹0 0, 0 0, 4 4›, ‹4 0, 0 4›, 0 0))",
     "own, line 2, e = 0, f = 2: the ring of bow isn't simple: its edge from (0 0) to (4 4) meets that from (4 0) to (0 4)"),
    ("34 1 1", "relate own", "a POLYGON ((0 0, ‹200000000 0›, 0 9, 0 0))",
     "own, line 1, k = 1: a has a coordinate beyond 100,000,000 in the point (200000000 0)"),
    ("33 1", "relate own", "a POLYGON ((‹0 0, 9 0, 0 0›))",
     "own, line 1: a has 2 vertices, and a ring has 3 at least"),
    ("38 1", "relate own", "‹{› \"type\": 1 }",
     "own, line 1: this looks like JSON; tools/polygons_of.py makes a polygon file of GeoJSON"),
    ("38 1", "relate own", "a POLYGON ((‹0.5› 0, 9 0, 0 9, 0.5 0))",
     "own, line 1: '0.5' is no whole number of 18 digits at most; tools/polygons_of.py makes whole numbers of "
     "decimals, by a scale"),
    ("38 1", "relate own", "‹POLYGON› ((0 0, 9 0, 0 9, 0 0))",
     "own, line 1: a line begins with the name of its polygon, as park POLYGON ((0 0, 9 0, 0 9, 0 0))"),
    ("39 1", "relate own", "a POLYGON ((0 0, 9 0, 0 9, 0 0)‹,› (1 1, 2 1, 1 2, 1 1))",
     "own, line 1: a has a hole, a further ring after the first, and a polygon here has one ring"),
    ("40 1", "relate own", "a POLYGON ((0 0, 9 0, ‹0 9›))",
     "own, line 1: a ends at (0 9), and not where it begins, at (0 0)"),
    ("41 2", "relate own", "a POLYGON ((0 0, 9 0, 0 9, 0 0))|‹a› POLYGON ((0 0))",
     "own, line 2: the polygon of line 1 has the name 'a' too"),
    ("43 0", "check rcc8 c --polygons own", "‹park› POLYGON ((0 0, 9 0, 0 9, 0 0))",
     "own, polygon 0: no node of the network has its name 'park'"),
    # what isn't found in the text as it is now is told in general
    ("18 1", "close rcc8", "‹›nodes 2|.",
     "line 1: the line has another form, or a byte that isn't allowed"),
    ("19 9", "close rcc8", "nodes 2|.",
     "line 9: a name that is no base relation of rcc8, or no node"),
    ("15 2", "close rcc8", "nodes|‹›0 9 ( EC )|.",
     "line 2: a node number that isn't below the number of nodes"),
]

# a line of a script of three nodes with its mark, the number of its refusal, and what is said
SCRIPTS = [
    ("s assert 0 ‹3› ( EC )", 15, "there is no node 3: they are numbered from 0 to 2"),
    ("s peek 1 ‹1›", 16, "both nodes are the same"),
    ("s assert 0 1 ( ‹ec› )", 19, "'ec' is no base relation of rcc8; did you mean EC?"),
    ("s withdraw ‹4›", 44, "there is no fact 4, or not yet in the version before this batch"),
    ("s withdraw ‹4›", 45, "the fact 4 isn't s's, and a session withdraws what is its own"),
    ("s ask ‹0› 1 2", 46, "version 0 isn't kept any more: the newest sixteen are"),
    ("s ask ‹9› 1 2", 47, "version 9 isn't made yet"),
    ("s ‹asert› 0 1 ( EC )", 48, "'asert' is nothing that a session does; did you mean assert?"),
    ("s peek ‹mill› 1", 48, "'mill' is no number; in a script facts, nodes and versions are numbers"),
    ("s peek 0‹ ›", 48, "the number of a node is missing here"),
    ("s peek 0 1 ‹2›", 48, "'2' is more than the line may have"),
    ("commit ‹now›", 48, "'commit' stands alone in its line"),
    ("‹s› peek 0 1", 49, "'s' is one session more than the 64 of a batch"),
    ("‹›s peek 0 1", 50, "one command more than the 4,096 of a batch; those after it are passed over"),
]

# words, and which input of them can't be read
UNREAD = [
    ("close RCC8", "no calculus rcc8, allen or point, and no such file: RCC8; did you mean rcc8?"),
    ("close rcc-8", "no calculus rcc8, allen or point, and no such file: rcc-8; did you mean rcc8?"),
    ("close a", "no calculus rcc8, allen or point, and no such file: a; did you mean a.net?"),
    ("solve rcc8 --class ord_horn", "no class h8, c8, q8 or none, and no such file: ord_horn"),
    ("intervals --class ord_horn", "no class none, and no such file: ord_horn"),
    ("check rcc8 my.cert --polygons p", "no such file: my.cert"),
    ("minimal a", "no calculus rcc8, allen or point, and no such file: a; did you mean a.net?"),
    ("relate folder", "folder is a folder, and no file"),
    ("relate a.net", None),
    ("close rcc8", "standard input can't be read"),
]


# the words, the first line of an answer that a spent budget ended, and what is said
SPENT = [
    ("minimal rcc8", "labels 4 2 30", ["30 base relations are open: the budget of splits was spent before their searches ended"]),
    ("minimal rcc8", "labels 35 0 1", ["1 base relation is open: the budget of splits was spent before its search ended"]),
    ("minimal rcc8", "labels", []),
    ("solve rcc8", "budget 3", []),
]


class Given:
    """A source that is given as bytes, or that can't be read again."""

    def __init__(self, data, name=""):
        with tempfile.TemporaryFile() as file:
            file.write(data or b"")
            file.flush()
            kept = os.dup(0)
            os.dup2(file.fileno(), 0)
            source = Source(0, name)
            os.dup2(kept, 0)
            os.close(kept)
        self.name, self.mode, self.text = name, source.mode, None if data is None else source.text


def bytes_of(text):
    return text.replace("‹", "").replace("›", "").replace("|", "\n").encode("latin-1")


def line_of(text, number=None):
    """The line with ‹›, as it is shown, and the marks under it; nothing where no line has them."""
    parts = text.split("|")
    at = next((k for k, part in enumerate(parts) if "‹" in part), None)
    if at is None:
        return ""
    told = marks = ""
    for part in re.split("(?=[‹›])", parts[at]):
        text = re.sub("[^ -~ü]", "?", part.lstrip("‹›").encode("latin-1").decode("utf-8", "replace"))
        told, marks = told + text, marks + ("^" if part.startswith("‹") else " ") * len(text)
    return f"\n{number or at + 1:>6} | {told.rstrip()}" + (f"\n       | {marks.rstrip()}" if "^" in marks else "")


def cases():
    for words, expected in WORDS:
        yield f"words: {words}", Asked(words.split()).fault, expected
    for place, words, text, said in LINES:
        number, *place = map(int, place.split())
        pathlib.Path("own").write_bytes(bytes_of(text))
        found = refusal(number, place, Asked(words.split()), Given(bytes_of(text)))
        yield f"refused {number}: {text}", found, [said + line_of(text)]
    for line, number, said in SCRIPTS:
        script = Given(bytes_of(f"# first|commit|# second|{line}"), "a.script")
        replies = [b"version 1 closed\n", b"line 2 refused %d\n" % number, b"version 2 closed\n"]
        asked = Asked("serve rcc8 3".split())
        yield f"script: {line}", script_messages(replies, asked, script), \
            [f"a.script, line 4, line 2 of batch 2: {said}{line_of(line, 4)}"]
        through_pipe = script_messages(replies, asked, Given(None))
        yield f"script through a pipe: {line}", [re.sub(": .*", "", said) for said in through_pipe], ["line 2 of batch 2"]
    for words, expected in UNREAD:
        yield f"unread: {words}", unread(Asked(words.split()), Given(b"")), expected
    for words, line, expected in SPENT:
        answer = io.BytesIO(f"{line}\nnodes 1\n.\n".encode())
        yield f"spent: {words}: {line}", status_messages(7, answer, Asked(words.split()), Given(b"")), expected
    yield "too long", too_long(Asked(["close", "rcc8"]), Given(b"")), "standard input has more than 16,777,216 bytes"
    many = [b"line %d refused 48\n" % k for k in range(1, 15)]
    yield "many refusals of a script", script_messages(many, Asked("serve rcc8 3".split()), Given(b"x\n" * 14))[10:], \
        ["4 more lines were refused"]
    yield "a pattern", refusal(37, [2], Asked("relate p --pattern T*X".split()), Given(b"")), \
        ["T*X, place 2: here, counted from 0, it isn't nine of T, F, *, 0, 1 and 2\n       | T*X\n       |   ^"]
    yield "an empty pattern", refusal(37, [0], Asked(["relate", "p", "--pattern="]), Given(b"")), \
        ["the pattern, place 0: here, counted from 0, it isn't nine of T, F, *, 0, 1 and 2\n       | \n       | ^"]
    yield "a source that can't be read again", refusal(19, [3], Asked(["close", "rcc8"]), Given(None)), \
        ["line 3: a name that is no base relation of rcc8, or no node"]
    yield "an empty network", refusal(20, [0], Asked(["close", "rcc8"]), Given(b"")), \
        ["after line 0: the network is empty; it begins with a line 'nodes N' and ends with a line \".\""]
    long = b"names ( " + b"a " * 200 + b"Q " + b"b " * 200 + b")"
    line, marks = shown(2, long, [(408, 409)]).split("\n")
    yield "a long line is cut", (line[9:12], line[-3:], len(line), line[marks.index("^")]), ("...", "...", 115, "Q")
    yield "wide letters", shown(1, "漢字 x".encode(), [(7, 8)]), "     1 | 漢字 x\n       |      ^"
    table = FORMATS.read_text().partition("\n| Words")[2].partition("\n\n")[0]
    told = dict(re.findall(r"^[|] `(\w+)([^`]*)` [|]", table, re.M))
    yield "the words of docs/FORMATS.md", {name: words.strip() for name, words in told.items()}, COMMANDS
    yield from calls()


def calls():
    """The tool as the script calls it: the offset is where the program began to read."""
    pathlib.Path("answer").write_text("refused 19 2\n")
    pathlib.Path("source").write_text("read before\nnodes 2\n0 1 ( ec )\n.\n")
    said = "higwadel: line 2: 'ec' is no base relation of rcc8; did you mean EC?\n     2 | 0 1 ( ec )\n       |       ^^\n"
    for words, expected in [("3 answer 12", (0, said)), ("5 answer 12", (1, ""))]:
        with open("source", encoding="utf-8") as source:
            asked = [TOOL, *words.split(), "", "close", "rcc8"]
            ran = subprocess.run(asked, stdin=source, stdout=subprocess.PIPE, text=True, check=False)
        yield f"the tool: {words}", (ran.returncode, ran.stdout), expected


def main():
    count = failed = 0
    with tempfile.TemporaryDirectory() as room:
        os.chdir(room)
        os.mkdir("folder")
        pathlib.Path("a.net").write_text("nodes 1\n.\n")
        for shows, found, expected in cases():
            count += 1
            if found != expected:
                failed += 1
                print(f"{shows}: {found!r} in place of {expected!r}")
        os.chdir("/")
    print(f"{count - failed} passed, {failed} failed")
    return 1 if failed else 0


if __name__ == "__main__":
    sys.exit(main())
