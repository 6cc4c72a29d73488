#!/usr/bin/env python3
"""Brings the repository's own definitions and lemmas to one spelling, after the kit's port.py has run.

usage: python3 tools/respell.py [--list]      at the top of the repository; --list prints the renamings and changes nothing

It ran once, and is kept so that the same can be done to an older commit. A second run would rename what it has named: where
docs/PORT.md stands it stops.

A name that begins in lower case is written in snake case. A dash stays where it joins the names of two functions, as in
`length-take`; between plain words it becomes an underscore. Types, modules, constructors, the names of the program's
functions and the names that Rattle makes for goals stay as they are. A lemma that would have the name of a definition or of
a function ends in `_lem`.
"""
import collections
import os
import re
import sys

NAME = re.compile(r"(?<![\w'≢-])[a-z][\w'≢]*(?:-[\w'≢]+)*(?![\w'≢-])")
HEAD = re.compile(r"^\s*(?:abbrev |unfoldable |pub )*([a-z][\w'≢-]*)\s*:\s")
# A lemma of the file that a definition's new name would hide.
BY_HAND = {
    "crates/rules/specs/RuleLaws.antt": {"same_number": "same_number_lem"},
    "crates/layout/proofs/Refills.antt": {"starts_fit": "starts_fit_lem"},
}
# Names that the kit's script respelled in part, and the parameter of a module.
BY_NAME = {"get_d_part": "get_or_part", "pairLaws": "pair_laws", "inRange": "in_range"}
LIBRARY = {"length", "get_or", "take", "drop", "map", "sum", "sum_by", "filter", "reverse", "slice_get", "slice_index", "flat_map", "range_with_len"}
OLD_WORDS = {"getD": "get_or", "nth": "slice_get", "sumBy": "sum_by", "isSome": "is_some"}


def files(*endings):
    for folder, folders, names in os.walk("crates"):
        folders[:] = sorted(f for f in folders if f not in ("out", "data", "must-fail"))
        for name in sorted(names):
            if name.endswith(endings):
                yield os.path.join(folder, name)


def read(path):
    with open(path, encoding="utf-8") as f:
        return f.read()


def snake(word):
    for old, new in OLD_WORDS.items():
        if word == old:
            return new
        if word.startswith(old) and word[len(old):len(old) + 1].isupper():
            word = new + word[len(old):]
    return re.sub(r"(?<=[a-z0-9])([A-Z])", lambda m: "_" + m.group(1).lower(), word)


def own_names():
    """Each name that a file of specs/ or proofs/ declares, and whether it is a function, in its new spelling."""
    own, functions = set(), set(LIBRARY)
    for path in files(".antt"):
        for line in read(path).split("\n"):
            found = HEAD.match(line)
            if not found or re.search(r":\s+(goal|need|given)\.", line):
                continue
            name = found.group(1)
            own.add(name)
            if ("abbrev " in line or "unfoldable " in line) and "-" not in name:
                functions.add(snake(name))
    return own, functions


def borrowed():
    """The names that a file takes from a library of the kit, which keep their spelling."""
    own, names = set(os.listdir("crates")), set()
    for path in files(".antt", ".rt"):
        for module, list_of in re.findall(r"use ([\w.'-]+)\.\{([^}]*)\}", read(path)):
            parts = module.split(".")
            if parts[0] != "Rattle" or parts[1] not in own:
                names |= {n.strip().split(" as ")[0] for n in list_of.split(",")}
    return names


def respelled(name, functions):
    parts = [snake(p) for p in name.split("-")]
    text = parts[0]
    for before, after in zip(parts, parts[1:]):
        text += ("-" if before in functions and after in functions else "_") + after
    return text


def fields():
    """The names of the fields of records, which stand behind a dot."""
    found = set()
    for path in files(".antt"):
        inside = False
        for line in read(path).split("\n"):
            if re.match(r"\s*pub record |\s*record ", line):
                inside = True
            elif line and not line.startswith(" "):
                inside = False
            elif inside and HEAD.match(line):
                found.add(HEAD.match(line).group(1))
    return found


def plan():
    """The renamings, by name: of definitions and fields first; a lemma that would have the name of one gets `_lem`."""
    own, functions = own_names()
    wanted = {n: respelled(n, functions) for n in own - borrowed()}
    wanted |= {n: wanted[n].replace("-", "_") for n in fields() & set(wanted)} | BY_NAME
    tokens = set()
    for path in files(".antt", ".rt"):
        tokens |= set(NAME.findall(read(path)))
    made = {n: m for n, m in wanted.items() if n != m and "-" not in n}
    taken = set(made.values()) | tokens
    for name in sorted(n for n, m in wanted.items() if n != m and "-" in n):
        made[name] = wanted[name] + ("_lem" if wanted[name] in taken else "")
        taken.add(made[name])
    return made


def turned(path, made, behind):
    text = read(path)

    def renamed(found):
        name = found.group(0)
        if path.endswith(".antt") and name in BY_HAND.get(path, {}):
            return BY_HAND[path][name]
        if "-" in name and name not in behind and text[found.start() - 1:found.start()] == ".":
            return name
        return made.get(name, name)

    if path.endswith(".antt"):
        return NAME.sub(renamed, text)
    lines = []
    for line in text.split("\n"):
        def in_line(found):
            name = found.group(0)
            if name.islower() and "-" not in name:
                return name
            if "-" in name and name not in behind and line[found.start() - 1:found.start()] == ".":
                return name
            return made.get(name, name)
        lines.append(line if line.lstrip().startswith("//") else NAME.sub(in_line, line))
    return "\n".join(lines)


def together(path, made, behind):
    """Names of a file that would fall together."""
    before = [n for n in NAME.findall(read(path))]
    after = collections.defaultdict(set)
    for name in before:
        after[BY_HAND.get(path, {}).get(name, made.get(name, name))].add(name)
    return {n: olds for n, olds in after.items() if len(olds) > 1}


def main():
    if os.path.exists("docs/PORT.md"):
        print("respell: docs/PORT.md stands, so this was done already")
        raise SystemExit(2)
    made, behind = plan(), fields()
    if "--list" in sys.argv:
        for name, new in sorted(made.items()):
            print(f"{name} {new}")
    texts = {}
    for path in files(".antt", ".rt"):
        for new, olds in together(path, made, behind).items():
            print(f"look: {path}: {', '.join(sorted(olds))} are all {new} now")
        texts[path] = turned(path, made, behind)
    if "--list" in sys.argv:
        return
    for path, text in texts.items():
        if text != read(path):
            with open(path, "w", encoding="utf-8") as f:
                f.write(text)
    print(f"{len(made)} names respelled")


main()
