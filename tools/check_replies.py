#!/usr/bin/env python3
"""Looks whether replies are those that a script of sessions has to have, in a plain and slow way.

Usage: tools/check_replies.py CALC NODES SCRIPT REPLIES [--close PROGRAM]

It shares no code with the program: every version is closed anew from the facts that stand, by going through all triples until
nothing changes. A peek has no one answer: it has to lie between the finished version and what its session was told before;
each other reply is compared byte by byte. With --close the program at PROGRAM closes the networks of the versions, from a
network file of their facts, so that networks of hundreds of nodes can be looked at. It writes how many replies were looked at,
or the first one that is wrong, and then ends with status 1.
"""
import argparse
import re
import subprocess
import sys

from expected_answers import TOKEN, Network, calculus_of, good_lines, is_name, read_file

LONGEST, MOST_LINES, MOST_SESSIONS, KEPT = 4096, 4096, 64, 16
NUMBER = re.compile(r"\d{1,18}\Z", re.ASCII)


class Malformed(Exception):
    """A line that has no form of a command."""


class Wrong(Exception):
    """A reply that isn't the one that it has to be."""


# ---- lines of a script

def tokens_of(line):
    """The tokens of a line without its LF, None where a byte isn't allowed."""
    shown, comment, _ = line.partition(b"#")
    if not comment and shown.endswith(b"\r"):
        shown = shown[:-1]
    if any(byte != 9 and not 32 <= byte <= 126 for byte in shown):
        return None
    return [token.decode() for token in TOKEN.findall(shown)]


def body_length(line):
    return len(line) - line.endswith(b"\r")


def number(token):
    if not NUMBER.match(token):
        raise Malformed
    return int(token)


def names_in_brackets(tokens):
    if len(tokens) < 2 or tokens[0] != "(" or tokens[-1] != ")" or not all(is_name(token.encode()) for token in tokens[1:-1]):
        raise Malformed
    return tokens[1:-1]


def command(tokens):
    """The session, the word, and what stands after it."""
    if len(tokens) < 2 or not is_name(tokens[0].encode()):
        raise Malformed
    session, word, rest = tokens[0], tokens[1], tokens[2:]
    if word == "assert" and len(rest) >= 2:
        return session, word, (number(rest[0]), number(rest[1]), names_in_brackets(rest[2:]))
    if word == "peek" and len(rest) == 2 or word == "withdraw" and len(rest) == 1 or word == "ask" and len(rest) in (2, 3):
        return session, word, tuple(number(token) for token in rest)
    raise Malformed


def batches(script):
    """For each batch the number, the tokens and the length of each line with tokens; None for tokens with a wrong byte."""
    lines = script.split(b"\n")
    if lines[-1] == b"":
        lines.pop()
    batch, at = [], 0
    for line in lines:
        at += 1
        tokens = tokens_of(line)
        if tokens == ["commit"]:
            yield batch
            batch, at = [], 0
        elif tokens is None or tokens:
            batch.append((at, tokens, body_length(line)))
    if batch:
        yield batch


# ---- versions

class Store:
    """The facts that stand, and the networks of the versions that are kept."""

    def __init__(self, calculus, nodes, close):
        self.calculus, self.nodes, self.close = calculus, nodes, close
        self.facts, self.next_fact, self.newest = {}, 1, 0
        self.versions = {0: Network(calculus, nodes)}

    def network(self, facts):
        net = Network(self.calculus, self.nodes)
        for _, i, j, word in facts.values():
            net.meet(i, j, word)
        return net

    def asked(self, version, i, j):
        """The set of a pair at a version, or the number of a refusal."""
        if version > self.newest:
            return None, 47
        if version + KEPT <= self.newest:
            return None, 46
        return self.versions[version].get(i, j), None


def plain_close(net):
    return net.closed()


def close_by(program, word):
    """Closes a network by the program."""
    def close(net):
        facts = "".join(f"{i} {j} {net.calculus.set_text(w)}\n" for (i, j), w in net.words.items() if w != net.calculus.full)
        text = f"nodes {net.nodes}\n{facts}.\n"
        ran = subprocess.run([program, "close", word], input=text.encode(), stdout=subprocess.PIPE, check=False)
        other = Network(net.calculus, net.nodes)
        for tokens in good_lines(ran.stdout, "closed network")[1:]:
            other.words[int(tokens[0]), int(tokens[1])] = net.calculus.word(tokens[2:])
        return other
    return close


# ---- a batch

class Batch:
    """The lines of a batch, each with its number, its session and what it asks, or the number of its refusal."""

    def __init__(self, store, lines):
        self.store, self.sessions, self.lines = store, [], []
        for count, (at, tokens, length) in enumerate(lines):
            if count > MOST_LINES:
                break
            self.lines.append((at, *self.read(count, tokens, length)))

    def read(self, count, tokens, length):
        """The session, the word and the rest of a line; the number of a refusal as the rest of no word."""
        if count == MOST_LINES:
            return None, None, 50
        try:
            if tokens is None or length > LONGEST:
                raise Malformed
            session, word, rest = command(tokens)
        except Malformed:
            return None, None, 48
        if session not in self.sessions:
            if len(self.sessions) == MOST_SESSIONS:
                return None, None, 49
            self.sessions.append(session)
        return session, *self.tested(word, rest)

    def tested(self, word, rest):
        if word == "withdraw":
            return word, rest
        i, j = rest[:2] if word == "assert" else rest[-2:]
        if i >= self.store.nodes or j >= self.store.nodes:
            return None, 15
        if i == j:
            return None, 16
        if word == "assert":
            names = self.store.calculus.names
            if any(name not in names for name in rest[2]):
                return None, 19
            return word, (i, j, sum(1 << names.index(name) for name in set(rest[2])))
        return word, rest

    def withdraw(self, facts):
        """Takes facts out; the number of the refusal of each line, if it is refused."""
        refusals = {}
        for at, session, word, rest in self.lines:
            if word == "withdraw":
                held = facts.get(rest[0])
                if held is None:
                    refusals[at] = 44
                elif held[0] != session:
                    refusals[at] = 45
                else:
                    del facts[rest[0]]
        return refusals

    def replies(self):
        """Makes the version; the replies, where that to a peek is a test of its set."""
        store = self.store
        facts = dict(store.facts)
        refusals = self.withdraw(facts)
        opening = store.versions[store.newest] if len(facts) == len(store.facts) else store.network(facts)
        first = store.next_fact
        for _, session, word, rest in self.lines:
            if word == "assert":
                facts[store.next_fact] = (session, *rest)
                store.next_fact += 1
        store.facts, store.newest = facts, store.newest + 1
        closed = store.close(store.network(facts))
        store.versions[store.newest] = closed
        store.versions.pop(store.newest - KEPT, None)
        told = {session: opening.copy() for session in self.sessions}
        for line in self.lines:
            yield self.reply(line, refusals, first, closed, told)
            first += line[2] == "assert"
        yield f"version {store.newest} {'empty' if closed.has_empty() else 'closed'}"

    def reply(self, line, refusals, next_fact, closed, told):
        at, session, word, rest = line
        refusal = rest if word is None else refusals.get(at)
        if word == "ask":
            version = rest[0] if len(rest) == 3 else self.store.newest
            found, refusal = self.store.asked(version, *rest[-2:])
        if refusal is not None:
            return f"line {at} refused {refusal}"
        if word == "assert":
            told[session].meet(*rest)
            return f"{session} fact {next_fact}"
        if word == "withdraw":
            return f"{session} withdrawn {rest[0]}"
        if word == "ask":
            return f"{session} ask {version} {self.store.calculus.set_text(found)}"
        return self.peek_test(session, rest, closed, told[session])

    def peek_test(self, session, pair, closed, told):
        """The test of the reply to a peek: the set that it shows is told to its session."""
        def test(reply):
            calculus, start = self.store.calculus, f"{session} peek "
            names = reply[len(start):].split()[1:-1]
            if not reply.startswith(start) or any(name not in calculus.names for name in names):
                return False
            word = sum(1 << calculus.names.index(name) for name in set(names))
            within = closed.get(*pair) & ~word == 0 and word & ~told.get(*pair) == 0
            told.meet(*pair, word)
            return within and reply == start + calculus.set_text(word)
        return test


def check(store, script, replies):
    """How many replies there are, all as they have to be."""
    lines = replies.decode("ascii").split("\n")
    if lines.pop() != "":
        raise Wrong("the last line isn't whole")
    count = 0
    for batch in batches(script):
        for wanted in Batch(store, batch).replies():
            if count == len(lines):
                raise Wrong(f"reply {count + 1} is missing")
            if not (wanted(lines[count]) if callable(wanted) else wanted == lines[count]):
                raise Wrong(f"reply {count + 1} is {lines[count]!r}" + ("" if callable(wanted) else f" and not {wanted!r}"))
            count += 1
    if count < len(lines):
        raise Wrong(f"there are {len(lines) - count} replies too many")
    return count


def main():
    parser = argparse.ArgumentParser(description="Looks whether replies are those that a script has to have.")
    parser.add_argument("calculus")
    parser.add_argument("nodes", type=int)
    parser.add_argument("script")
    parser.add_argument("replies")
    parser.add_argument("--close", metavar="PROGRAM")
    asked = parser.parse_args()
    close = close_by(asked.close, asked.calculus) if asked.close else plain_close
    store = Store(calculus_of(asked.calculus), asked.nodes, close)
    try:
        print(f"{check(store, read_file(asked.script), read_file(asked.replies))} replies are as they have to be")
    except Wrong as fault:
        print(fault)
        sys.exit(1)


if __name__ == "__main__":
    main()
