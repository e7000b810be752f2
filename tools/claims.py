#!/usr/bin/env python3
"""Says whether what the documents name of claims and definitions is there: files, calls, clauses, definitions, code.

Usage: tools/claims.py      at the top of the repository

In PROVED what is told of crates begins with their names. A name in backquotes there is one of their sources or
definitions, or of a crate below them; one in brackets, as (`closure`), is a clause of their contracts, a part of
their definitions, or a call. A name with a slash or a dot is a file. In DEFINITIONS each definition stands in the
files of its row. In VERIFICATION each block of code stands so, but for line ends, in a source or a definition. Prints
each name that isn't there, with its line; the status is 1 if there is one.
"""
import pathlib, re, sys

WORD = re.compile(r"[^\W\d]\w*")
BEGINS = re.compile(r"\*\*`(\w+)`\*\*")
FILE = re.compile(r"[\w*.]*[/.][\w*./]+")
QUOTED = re.compile(r"`([^`\n]+)`")
IN_BRACKETS = re.compile(r"\(((?:`\w+`(?:, | and |, and )?)+)\)")
CODE = re.compile(r"^```\w+\n(.*?)^```$", re.M | re.S)
PART = re.compile(r"\b(?:ensures|requires)\s+(\w+)\s*\{|^\s*pub (\w+) :|\bfn (\w+)", re.M)


def texts(crate):
    files = [file for part in ("src", "specs") for file in sorted(crate.glob(f"{part}/**/*.*t"))]
    return [file.read_text() for file in files]


class Crates:
    """The names in the crates' sources and definitions, and which of them are clauses, definitions' parts or calls."""

    def __init__(self, top):
        self.words, self.parts, self.below = {}, {}, {}
        for line in (top / "crates.txt").read_text().splitlines():
            name, libraries = line.split(":")
            found = texts(top / "crates" / name)
            self.words[name] = {name} | {word for text in found for word in WORD.findall(text)}
            self.parts[name] = {word for text in found for words in PART.findall(text) for word in words if word}
            self.below[name] = {name}.union(*(self.below.get(it, set()) for it in libraries.split()))

    def have_word(self, crates, word):
        below = set().union(*(self.below[it] for it in crates)) or self.words
        return any(word in self.words[it] for it in below)

    def have_part(self, crates, word):
        return any(word in self.parts[it] for it in crates)


def lacking_claims(top, text):
    """Each name in the text of claims that isn't there, with its line."""
    crates = Crates(top)
    told = []
    for number, line in enumerate(text.splitlines(), 1):
        if line.startswith(("**", "#")):
            told = BEGINS.findall(line)
        in_brackets = {name for group in IN_BRACKETS.findall(line) for name in QUOTED.findall(group)}
        for name in QUOTED.findall(line):
            if FILE.fullmatch(name) or (top / name).is_file():
                is_there = any(top.glob(name))
            elif "_*" in name:
                is_there = any(top.glob(f"crates/{name}"))
            elif told and name in in_brackets and name[0].islower():
                is_there = crates.have_part(told, name)
            else:
                is_there = all(crates.have_word(told, word) for word in WORD.findall(name))
            if not is_there:
                yield number, name


def files_of_row(top, where, before):
    """The files that a row names, and what it names besides. A name may go on from the file before it."""
    files, others = list(before) if "the same" in where else [], []
    for name in QUOTED.findall(where):
        last = (files or before or [top / "crates" / "file"])[-1]
        places = [top / "crates" / name, last.parent / name, last.parents[1] / name]
        found = [it for it in places if it.is_file()]
        files, others = files + found[:1], others + [name] * (not found)
    return files, others


def lacking_definitions(top, text):
    """Each name that isn't in the files of its row, and each file that isn't there, with its line."""
    files = []
    for number, line in enumerate(text.splitlines(), 1):
        columns = [it.strip() for it in line.strip("|").split("|")]
        if not line.startswith("| `") or len(columns) != 3:
            continue
        files, others = files_of_row(top, columns[2], files)
        words = {word for file in files for word in WORD.findall(file.read_text())}
        for name in QUOTED.findall(columns[0]):
            if not words.issuperset(WORD.findall(name)):
                others.append(name)
        yield from ((number, name) for name in others)


def lacking_code(top, text):
    """The first line of each block of code that stands in no source or definition, with its number."""
    found = " ".join(" ".join(it.split()) for crate in top.glob("crates/*") for it in texts(crate))
    for block in CODE.finditer(text):
        if " ".join(block[1].split()) not in found:
            yield text.count("\n", 0, block.start(1)) + 1, block[1].splitlines()[0].strip()


def main():
    top, found = pathlib.Path("."), 0
    checks = {"PROVED.md": lacking_claims, "DEFINITIONS.md": lacking_definitions, "VERIFICATION.md": lacking_code}
    for name, lacking in checks.items():
        file = top / "docs" / name
        for number, what in lacking(top, file.read_text()):
            print(f"{file}:{number}: {what} isn't there")
            found += 1
    return 1 if found else 0


if __name__ == "__main__":
    sys.exit(main())
