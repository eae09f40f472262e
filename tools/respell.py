#!/usr/bin/env python3
"""Respells this repository's own definitions and lemmas in snake case, as the library has them.

usage: python3 tools/respell.py [--dry]     at the top of the repository, once, after the port's own script

What is turned: definitions, fields, constructors, lemmas and local names of the form `planBytes` (to `plan_bytes`), and lemmas of the form
`read-next` (to `read_next`), in crates/ (sources' clauses, definitions, proofs, edits) and, between backquotes, in README.md and docs/.
What stays: types and modules, names of the sources, strings, names that the checker makes (a dash joins their parts), and a part of a name
that is itself a type's name, behind its dash.
"""

import os
import re
import sys

# A name's characters; what stands between names.
TOKEN = re.compile(r"[^\s(){}\[\];,.λ\"|\\@`]+")
SIGNATURE = re.compile(r"^(\s*)(?:(?:pub|abbrev|unfoldable|private|opaque)\s+)*([^\s:(){}=|]+)\s*(?:\{[^}]*\}\s*)?:(?!=)\s*(.*)$")
CAMEL = re.compile(r"^[a-z][^\s/-]*?[a-z0-9'][A-Z]")
MADE = re.compile(r"\b(?:Need|Inv|Statement|Measure)-|\btie\.")
# Names of the sources that look alike.
KEPT = set()
# Lemmas of a crate whose name a definition takes, found by `settled`.
TAKEN = set()


def files(root):
    for folder, dirs, names in os.walk(os.path.join(root, "crates")):
        dirs[:] = sorted(d for d in dirs if d != "out")
        for name in sorted(names):
            if name.endswith((".antt", ".rt", ".edit")):
                yield os.path.join(folder, name)


def snake(name):
    parts = []
    for part in name.split("-"):
        if part[:1].isupper():
            parts.append("-" + part)
            continue
        turned = re.sub(r"(?<=[a-z0-9'])([A-Z])", lambda m: "_" + m[1].lower(), part)
        parts.append("_" + turned)
    whole = "".join(parts)[1:]
    return whole


def code_of(line):
    """The line without its comment, in antt."""
    if line.startswith("--"):
        return ""
    return line.split(" -- ")[0]


def collect(root):
    """The names to turn, each with its new spelling."""
    camel, dashed = set(), set()
    for path in files(root):
        if not path.endswith(".antt"):
            continue
        with open(path, encoding="utf-8") as it:
            lines = it.read().split("\n")
        for number, line in enumerate(lines):
            code = code_of(line)
            for token in TOKEN.findall(code):
                if CAMEL.match(token) and "::" not in token:
                    camel.add(token)
            found = SIGNATURE.match(code)
            if found and "-" in found[2] and not code.strip().startswith("use "):
                name, rest = found[2], found[3]
                if MADE.search(rest):
                    continue
                if re.fullmatch(r"[^\s]*[a-z][^\s]*", name) and not name.startswith("-") and not name[0].isupper():
                    dashed.add(name)
    return settled(root, {name: snake(name) for name in camel | dashed if snake(name) != name and name not in KEPT})


def settled(root, table):
    """The table with names that would fall together kept apart: a lemma that would have a definition's name gets `_lem`."""
    seen, declared = {}, {}
    for path in files(root):
        with open(path, encoding="utf-8") as it:
            text = it.read()
        for line in text.split("\n"):
            code = code_of(line) if path.endswith(".antt") else line.split("//")[0]
            for token in TOKEN.findall(code):
                seen.setdefault(token, set()).add(path)
            found = SIGNATURE.match(code) if path.endswith(".antt") else None
            if found:
                declared.setdefault(found[2], set()).add(path)
    by_new = {}
    for old, new in table.items():
        by_new.setdefault(new, []).append(old)
    apart = dict(table)
    for new, olds in by_new.items():
        plain = sorted(old for old in olds if "-" not in old)
        dashed = sorted(old for old in olds if "-" in old)
        if len(plain) > 1 or len(dashed) > 1 and plain:
            raise SystemExit(f"respell: {olds} fall together")
        stands = new in seen and new not in table
        if plain and dashed or len(dashed) > 1:
            for number, old in enumerate(dashed):
                if plain or number:
                    apart[old] = new + "_lem"
        elif dashed and stands and (new in declared or seen[new] & seen[dashed[0]]):
            apart[dashed[0]] = new + "_lem"
        elif plain and stands and declared.get(new, set()) & seen[plain[0]]:
            for path in declared[new] & seen[plain[0]]:
                crate = os.path.relpath(path, os.path.join(root, "crates")).split(os.sep)[0]
                TAKEN.add((crate, new))
    return apart


def turn_code(text, table, steps=False):
    """The text with its names turned; with steps, what stands behind a dot may be a step that the checker names after the source."""

    def one(found):
        name = found[0]
        if name not in table:
            return name
        is_behind = text[: found.start()].endswith(".")
        if is_behind and table[name] == name + "_lem":
            return name
        if is_behind and steps and "-" in name:
            return snake(name)
        return table[name]

    return TOKEN.sub(one, text)


def turn_quoted(text, table):
    return re.sub(r"`[^`\n]+`", lambda m: turn_code(m[0], table), text)


def turn_antt(text, table, crate="", steps=False):
    table = table | {name: name + "_lem" for owner, name in TAKEN if owner == crate}
    camel = {k: v for k, v in table.items() if "-" not in k}
    out = []
    for line in text.split("\n"):
        code = code_of(line)
        comment = line[len(code):]
        out.append(turn_code(code, table, steps) + turn_quoted(turn_code(comment, camel), table))
    return "\n".join(out)


def turn_rt(text, table):
    camel = {k: v for k, v in table.items() if "-" not in k}
    out = []
    for line in text.split("\n"):
        at = line.find("//")
        code, comment = (line, "") if at < 0 else (line[:at], line[at:])
        pieces = re.split(r'("(?:[^"\\]|\\.)*")', code)
        code = "".join(p if i % 2 else turn_code(p, table) for i, p in enumerate(pieces))
        out.append(code + turn_quoted(turn_code(comment, camel), table))
    return "\n".join(out)


def main():
    root = os.getcwd()
    table = collect(root)
    if "--dry" in sys.argv:
        for old in sorted(table):
            print(old, table[old])
        return
    for path in files(root):
        with open(path, encoding="utf-8") as it:
            text = it.read()
        crate = os.path.relpath(path, os.path.join(root, "crates")).split(os.sep)[0]
        steps = os.path.basename(path) == "Proof.antt"
        new = turn_antt(text, table, crate, steps) if path.endswith(".antt") else turn_rt(text, table)
        if new != text:
            with open(path, "w", encoding="utf-8") as it:
                it.write(new)
    pages = [os.path.join(root, "README.md")] + [os.path.join(root, "docs", n) for n in sorted(os.listdir(os.path.join(root, "docs"))) if n.endswith(".md")]
    for path in pages:
        with open(path, encoding="utf-8") as it:
            text = it.read()
        new = turn_quoted(text, table)
        if new != text:
            with open(path, "w", encoding="utf-8") as it:
                it.write(new)


main()
