"""The forms of the program's answers, as docs/FORMATS.md has them: each test returns whether the text is one that goes with the
status."""
import itertools
import json
import re

RCC8 = "DC EC PO TPP NTPP TPPi NTPPi EQ".split()

# how many numbers tell the place of a refusal, or of what isn't accepted
PLACES = {number: (1,) for number in range(4, 44)}
PLACES.update({7: (3,), 8: (3,), 11: (1, 2), 23: (3,), 25: (2,), 26: (3,), 27: (0,), 31: (0,), 32: (2,), 34: (2,), 35: (3,),
               51: (2,), 52: (0,)})
IN_TABLES, IN_NETWORKS, IN_CLASSES = {*range(4, 14)}, {*range(14, 21)}, {*range(21, 25)}
IN_CERTIFICATES, IN_POLYGONS, IN_CLAIMS = {31, 32}, {*range(33, 43)} - {37}, {*range(25, 31), 51}
IN_SCRIPTS = {15, 16, 19, *range(44, 51)}
NUMBER = r"(?:0|[1-9][0-9]*)"
NAME_BYTES = r"!$-'*+\--/;-\[\]-~"
NAME = rf"(?:(?!\. )[{NAME_BYTES}][{NAME_BYTES}0-9]{{0,63}})"
SET = rf"\((?: {NAME})* \)"


def is_numbered(text, word, numbers):
    found = re.fullmatch(rf"{word} ({NUMBER})((?: {NUMBER})*)\n", text)
    return bool(found) and int(found[1]) in numbers and len(found[2].split()) in PLACES[int(found[1])]


def is_set(members, bases):
    """Whether the names are those of base relations, in their order."""
    return members == [base for base in bases if base in members] if bases else len(set(members)) == len(members)


def sets_of(text, bases):
    """The sets of a network in its canonical text, or None where it is none."""
    found = text.split("\n")
    header = re.fullmatch(rf"nodes ({NUMBER})", found[0])
    if not header or found[-2:] != [".", ""]:
        return None
    nodes, facts = int(header[1]), found[1:-2]
    if facts and facts[0].startswith("names "):
        if not re.fullmatch(rf"names \((?: {NAME}){{{nodes}}} \)", facts.pop(0)):
            return None
    pairs = [f"{i} {j}" for i in range(nodes) for j in range(i + 1, nodes)]
    if len(facts) != len(pairs):
        return None
    sets = []
    for pair, fact in zip(pairs, facts):
        members = fact.removeprefix(pair).split(" ")[2:-1]
        if fact != f"{pair} ( {''.join(f'{name} ' for name in members)})" or not is_set(members, bases):
            return None
        sets.append(members)
    return sets


def is_closure(status, text, bases, _):
    sets = sets_of(text, bases)
    return sets is not None and status == (1 if [] in sets else 0) and (status == 0 or not any(sets))


def is_scenario(text, bases):
    sets = sets_of(text, bases)
    return sets is not None and all(len(members) == 1 for members in sets)


def is_schedule(text, _):
    """Each interval begins before it ends, and the numbers of the end points leave no gap."""
    if not re.fullmatch(rf"(?:(?:{NAME}|{NUMBER}) {NUMBER} {NUMBER}\n)+", text):
        return False
    intervals = [[int(number) for number in line.split()[1:]] for line in text.splitlines()]
    ends = {end for interval in intervals for end in interval}
    return all(begin < end for begin, end in intervals) and ends == {*range(len(ends))}


def is_verdict(status, text, bases, is_answer):
    found = re.match(rf"(yes|no|budget) ({NUMBER})\n", text)
    if not found or status != {"yes": 0, "no": 1, "budget": 7}[found[1]] or int(found[2]) > 10_000:
        return False
    rest = text[found.end():]
    return is_answer(rest, bases) if found[1] == "yes" else rest == ""


def is_search(status, text, bases, words):
    if "--cert" in words:
        return is_certificate(status, text, bases, words)
    return is_verdict(status, text, bases, is_scenario)


def is_intervals(status, text, bases, _):
    return is_verdict(status, text, bases, is_schedule)


def is_minimal(status, text, bases, _):
    """The relations that are written are held or open; where none is open, no set is empty or each is."""
    found = re.match(rf"labels ({NUMBER}) ({NUMBER}) ({NUMBER})\n", text)
    sets = sets_of(text[found.end():], bases) if found else None
    if sets is None:
        return False
    held, _, left_open = map(int, found.groups())
    if held + left_open != sum(map(len, sets)) or [] in sets and (held > 0 or left_open == 0 and any(sets)):
        return False
    return status == (1 if [] in sets else 7 if left_open else 0)


def is_node(node, version):
    """A node of a tree, whose steps stand last in version 2."""
    if version == 2 and node[0] in ("split", "empty"):
        steps = node.pop()
        if steps != "sweep" and any(len(step) != 3 for step in steps):
            return False
    if node[0] == "split":
        return len(node) == 5 and node[1] < node[2] and len(node[3]) == len(node[4])
    return node in (["empty"], ["found"], ["open"], ["later"])


def is_certificate(status, text, bases, _):
    try:
        value = json.loads(text)
        keys = ["nodes", "relations", "scenario", "tree", "verdict", "version"]
        if value["verdict"] != "yes":
            keys.remove("scenario")
        elif len(value["scenario"]) != value["nodes"] * (value["nodes"] - 1) // 2:
            return False
        return (list(value) == keys and text == json.dumps(value, separators=(",", ":")) + "\n" and value["version"] in (1, 2)
                and status == {"yes": 0, "no": 1, "budget": 7}[value["verdict"]] and is_set(value["relations"], bases)
                and all(is_node(node, value["version"]) for node in value["tree"]))
    except (ValueError, TypeError, LookupError):
        return False


def is_check(status, text, _, __):
    return (status, text) == (0, "accepted\n") or status == 8 and is_numbered(text, "not accepted", IN_CLAIMS)


def is_trace(status, text, bases, words):
    """A trace has the status 0 whatever the verdict is."""
    return status == 8 and is_check(status, text, bases, words) or status == 0 and any(
        is_certificate(other, text, bases, words) for other in (0, 1, 7))


def are_relations(status, text, bases, _):
    return status == 0 and bool(re.fullmatch(rf"(?:{NAME} {NAME} [012F]{{8}}2 (?:{'|'.join(RCC8)})\n)*", text))


def is_scene(status, text, bases, _):
    return status == 0 and is_scenario(text, RCC8)


REPLY = re.compile(rf"version (?P<version>{NUMBER}) (?:closed|empty)|line [1-9][0-9]* refused (?P<refused>{NUMBER})|{NAME} (?:"
                   rf"fact (?P<fact>{NUMBER})|withdrawn {NUMBER}|ask {NUMBER} (?P<set>{SET})|peek (?P<peeked>{SET}))")


def are_replies(status, text, bases, _):
    """Versions and facts are numbered from 1, and a version ends what is written."""
    versions, facts, found = itertools.count(1), itertools.count(1), text.split("\n")
    for line in found[:-1]:
        reply = REPLY.fullmatch(line)
        if not reply:
            return False
        if reply["version"] and int(reply["version"]) != next(versions) or reply["fact"] and int(reply["fact"]) != next(facts):
            return False
        members = reply["set"] or reply["peeked"]
        if members and not is_set(members.split()[1:-1], bases):
            return False
        if reply["refused"] and int(reply["refused"]) not in IN_SCRIPTS:
            return False
    return status == 0 and (text == "" or found[-1] == "" and found[-2].startswith("version "))


def is_demonstration(status, text, _, __):
    found = re.fullmatch(rf"demo {NUMBER} {NUMBER}\nkept {NUMBER}\nbits {NUMBER}\n(yes|budget) {NUMBER}\n", text)
    return bool(found) and status == {"yes": 0, "budget": 7}[found[1]]


FORMS = {"close": is_closure, "solve": is_search, "intervals": is_intervals, "minimal": is_minimal, "check": is_check,
         "trace": is_trace, "relate": are_relations, "scene": is_scene, "serve": are_replies, "demo": is_demonstration}


def is_answer_to(words, refusals, bases, status, text):
    return status == 3 and is_numbered(text, "refused", refusals) or FORMS[words[0]](status, text, bases, words)


def is_answer_to_words(words, status, text):
    """Any answer that a command may have; without one, the usage line, or nothing for words that aren't UTF-8."""
    try:
        words = [word.decode() for word in words]
    except UnicodeDecodeError:
        return (status, text) == (2, "")
    if (status, text) == (2, "usage\n"):
        return True
    if words[0] not in FORMS:
        return False
    return (status, text) == (4, "") or is_answer_to(words, PLACES.keys() - IN_CLAIMS, None, status, text)
