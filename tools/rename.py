#!/usr/bin/env python3
"""Spells the definitions and lemmas of this repository as today's Rattle does: words in snake case, facts and types in upper camel case.

usage: python3 tools/rename.py [--list]      at the top of the repository, once

Only names that the repository declares in .antt files or in ghost items are changed, wherever they stand in .antt files, in .rt code,
in edits, and between backticks in comments and pages. Functions, exported names, strings, inputs and outputs keep theirs."""

import os
import re
import sys

WORD = r"[A-Za-z_][A-Za-z0-9_']*"
NAME = re.compile(rf"{WORD}(?:-[A-Za-z0-9_'+]+)*")
HEAD = re.compile(rf"\s*(?:(?:pub|abbrev|data|record|unfoldable)\s+)*({NAME.pattern})\s*[:({{]")
BOUND = re.compile(r"[({]([^(){}:,.=]+):(?![:=])")
GHOST = re.compile(rf"^\s*ghost\s+({NAME.pattern})\s*:")
OUTSIDE = re.compile(r"^\s*(?:ghost\s+|pub\s+)*use\s+(?!Rattle\.(?:%s)\.)([A-Za-z·.]+)\.\{([^}]*)\}")
OWN_SPELLING = {"getD-join": "get_or_join", "getD-written": "get_or_written", "by_sign_lem": "by_sign"}


def files(root, endings):
    for folder, dirs, names in os.walk(root):
        dirs[:] = sorted(d for d in dirs if d not in (".git", "out", "target"))
        for name in sorted(names):
            if name.endswith(endings):
                yield os.path.join(folder, name)


def is_answer(path):
    return os.path.basename(path) in ("Answers.antt", "Invariants.antt")


def code(line, mark):
    """The line without its comment."""
    at = line.find(mark)
    return line if at < 0 or (at > 0 and line[at - 1] != " ") else line[:at]


def declared(path):
    """The names that a file declares, with the names that it binds."""
    found = set()
    mark = "--" if path.endswith(".antt") else "//"
    for line in open(path, encoding="utf-8"):
        line = code(line, mark)
        if path.endswith(".rt"):
            m = GHOST.match(line)
            found |= {m[1]} if m else set()
            continue
        m = HEAD.match(line)
        if m and " : " in line and not re.search(r":\s*(?:goal|need)\.", line):
            found.add(m[1])
        m = NAME.match(line.strip())
        if m and " = " in line and not is_answer(path):
            found.add(m[0])
        for m in re.finditer(rf"\blet\s+({NAME.pattern})", line):
            found.add(m[1])
        for group in BOUND.findall(line):
            found |= set(group.split())
        for group in re.findall(r"λ([^.]*)\.", line):
            found |= {w for w in group.split() if NAME.fullmatch(w)}
    return found


def outside(paths, crates):
    """The names that are imported from outside the repository."""
    pattern = re.compile(OUTSIDE.pattern % "|".join(sorted(crates)))
    found = {}
    for path in paths:
        for line in open(path, encoding="utf-8"):
            m = pattern.match(line)
            if m:
                for part in m[2].split(","):
                    words = part.split(" as ")
                    found.setdefault(words[0].strip(), set()).add(path)
    return found


def snake(name):
    return re.sub(r"(?<=[a-z0-9])([A-Z])", lambda m: "_" + m[1].lower(), name).replace("-", "_")


def spelled(name):
    if name in OWN_SPELLING:
        return OWN_SPELLING[name]
    if name[0].isupper():
        return "".join(part[0].upper() + part[1:] for part in name.split("-") if part)
    return snake(name)


def table_for(path, table, shared):
    """The table without the names that this file imports from outside."""
    return {name: target for name, target in table.items() if path not in shared.get(name, ())}


def turn(text, table):
    return NAME.sub(lambda m: table.get(m[0], m[0]), text)


def turn_backticks(text, table):
    return re.sub(r"`[^`\n]*`", lambda m: turn(m[0], table), text)


def turn_file(path, table):
    text = open(path, encoding="utf-8").read()
    if path.endswith(".md"):
        new = turn_backticks(text, table)
    elif path.endswith((".edit", ".txt")):
        new = turn(text, table)
    else:
        mark = "--" if path.endswith(".antt") else "//"
        lines = []
        for line in text.split("\n"):
            kept = code(line, mark)
            lines.append(turn(kept, table) + turn_backticks(line[len(kept):], table))
        new = "\n".join(lines)
    if new != text:
        open(path, "w", encoding="utf-8").write(new)


def main():
    crates = sorted(os.listdir("crates"))
    sources = list(files("crates", (".antt", ".rt")))
    own = {}
    for path in sources:
        for name in declared(path):
            own.setdefault(name, set()).add(path)
    theirs = outside(sources, crates)
    table = {name: spelled(name) for name in own if NAME.fullmatch(name) and spelled(name) != name}
    table.update(OWN_SPELLING)
    shared = {name: theirs[name] for name in table if name in theirs}
    by_target = {}
    for name, target in table.items():
        by_target.setdefault(target, []).append(name)
    for target, names in sorted(by_target.items()):
        if len(names) > 1 or target in own or target in theirs:
            print("falls together:", target, sorted(names), "declared too" if target in own else "", "imported too" if target in theirs else "")
    for name, paths in sorted(shared.items()):
        print("imported from outside, and left there:", name, sorted(paths))
    if "--list" in sys.argv:
        for name, target in sorted(table.items()):
            print(name, target)
        return
    for path in list(files("crates", (".antt", ".rt", ".edit"))) + list(files("docs", (".md",))) + ["README.md"]:
        turn_file(path, table_for(path, table, shared))


main()
