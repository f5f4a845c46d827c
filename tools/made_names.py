#!/usr/bin/env python3
"""Spells the names that the check makes, in the answers and invariants, as it makes them today: a name from src/ keeps its underscores.

usage: python3 tools/made_names.py      at the top of the repository, after tools/rename.py"""

import os
import re

PARTS = re.compile(r"(?<![\w'])[A-Za-z_+][\w']*(?:-[\w'+]+)+")
STD = {"is_some", "is_none", "is_ok", "is_err", "is_empty", "copy_from_slice", "deref_mut", "from_residual", "invariant_of", "in_err", "in_ok", "in_default", "slice_bounds", "trailing_zeros", "as_ref", "as_mut", "split_at", "split_at_mut"}


def source_names(crate):
    names = set(STD)
    for folder, _, files in os.walk(os.path.join("crates", crate, "src")):
        for name in files:
            text = open(os.path.join(folder, name), encoding="utf-8").read()
            names |= set(re.findall(r"\b[a-z][a-z0-9]*(?:_[a-z0-9]+)+\b", text))
    return {tuple(n.split("_")): n for n in names}


def spelled(token, names):
    parts, out, i = token.split("-"), [], 0
    while i < len(parts):
        for j in range(len(parts), i + 1, -1):
            if tuple(parts[i:j]) in names:
                out.append(names[tuple(parts[i:j])])
                i = j
                break
        else:
            out.append(parts[i])
            i += 1
    return "-".join(out)


def imported(text):
    found = set()
    for words in re.findall(r"^use (?!.*\.(?:Goals|Given)\.)[^{\n]*\.\{([^}]*)\}", text, re.M):
        found |= {w.split(" as ")[-1].strip() for w in words.split(",")}
    return found


def main():
    for crate in sorted(os.listdir("crates")):
        names = source_names(crate)
        for folder, _, files in os.walk(os.path.join("crates", crate, "proofs")):
            for name in files:
                if name not in ("Answers.antt", "Invariants.antt"):
                    continue
                path = os.path.join(folder, name)
                text = open(path, encoding="utf-8").read()
                kept = imported(text)
                lines = [line if re.match(r"use (?!.*\.(?:Goals|Given)\b)", line) else PARTS.sub(lambda m: m[0] if m[0] in kept else spelled(m[0], names), line) for line in text.split("\n")]
                new = "\n".join(lines)
                if new != text:
                    open(path, "w", encoding="utf-8").write(new)


main()
