#!/usr/bin/env python3
"""Respells this repository's own definitions and lemmas as today's Rattle spells names.

Words are in snake case (`with-line` becomes `with_line`), types in camel case (`Row-answered` becomes `RowAnswered`).
In proof files, the parts of made names that stand for a function of the source have that function's spelling
(`line-at-requires` becomes `line_at-requires`). Names that the library spells with a dash stay, and so do strings,
paths and the names of functions of src/. Run it once, at the top of the repository, after the toolchain's own script.
"""
import glob
import re
import sys

PART = r"[A-Za-z0-9_'₀-₉ℕℤ]+"
NAME = re.compile(rf"(?<![\w'₀-₉/-]){PART}(?:-{PART})+(?![\w'-])")
DEFINED = re.compile(r"(?:^\s*|\blet |[(]let )((?:(?:abbrev|unfoldable|pub|record|data) )*)([A-Za-z_][^\s:(){}=]*)\s*(?=:|=|\s[({][^=]*:)")


def code_lines(text):
    for line in text.split("\n"):
        yield "" if line.strip().startswith("--") else line


def read(path):
    with open(path, encoding="utf-8") as file:
        return file.read()


def own_names(paths):
    """The dashed names that the proofs and specs define, but for goals and for names that the library has too."""
    defined, library, goals = set(), set(), set()
    for path in paths:
        for line in code_lines(read(path)):
            imported = re.match(r"use (\S+)\.\{(.*)\}", line)
            if imported:
                if not re.match(r"Rattle\.(books|factors|walkthrough|comparison|two_books)\b", imported.group(1)):
                    library.update(name.strip().split(" as ")[0] for name in imported.group(2).split(","))
                continue
            if line.startswith("use "):
                continue
            goal = re.match(r"(?:abbrev )?pub (\S+) : (?:goal|given|need)\.", line)
            if goal:
                goals.add(goal.group(1))
                continue
            for match in DEFINED.finditer(line):
                if NAME.fullmatch(match.group(2)):
                    defined.add(match.group(2))
    return defined - library - goals


def respelled(name):
    parts = name.split("-")
    if name[0].isupper():
        return "".join(part[0].upper() + part[1:] for part in parts)
    return "_".join(parts)


def source_names(paths):
    """The functions of the source that have an underscore, by their spelling with dashes, the longest first."""
    names = set()
    for path in paths:
        names.update(re.findall(r"\bfn ([a-z0-9]+(?:_[a-z0-9]+)+)", read(path)))
    names.update(["is_some", "is_none"])
    return sorted(names, key=len, reverse=True)


def respell_made(name, functions):
    """A made name: the parts that name a function of the source get its spelling."""
    for function in functions:
        dashed = function.replace("_", "-")
        name = re.sub(rf"(?<![\w']){re.escape(dashed)}(?![\w'])", function, name)
    return name


def main():
    antt = sorted(glob.glob("crates/**/*.antt", recursive=True))
    source = sorted(glob.glob("crates/*/src/**/*.rt", recursive=True))
    pages = ["README.md"] + sorted(glob.glob("docs/*.md"))
    table = {name: respelled(name) for name in own_names(antt)}
    functions = source_names(source)
    taken = {}
    for old, new in table.items():
        taken.setdefault(new, []).append(old)
    words = set()
    for path in antt:
        for line in code_lines(read(path)):
            words.update(re.findall(r"[A-Za-z_][\w'₀-₉]*", line))
    for new, olds in sorted(taken.items()):
        if len(olds) > 1:
            print("fall together:", olds, "->", new)
        if new in words:
            print("is there already:", olds, "->", new)
        if new in functions:
            print("is a function of the source too:", olds, "->", new)
    if "--dry" in sys.argv:
        for old in sorted(table):
            print(f"  {old} -> {table[old]}")
        return
    for path in antt + source + pages:
        text = read(path)
        proof = re.search(r"/proofs/.*/(Answers|Invariants|Proof)\.antt$", path)

        def turn(match):
            name = match.group(0)
            if name in table:
                return table[name]
            return respell_made(name, functions) if proof else name

        new = NAME.sub(turn, text)
        if new != text:
            with open(path, "w", encoding="utf-8") as file:
                file.write(new)


main()
