#!/usr/bin/env python3
"""Bring the names of definitions, lemmas and fields to snake case.

Run at the top of the repository, once, after the toolchain's own port script. It goes through
the definitions and proofs (.antt), the clauses of the sources (.rt), the must-fail edits and the
pages (.md). A word such as `columnLines` becomes `column_lines`, also where it is a part of a
longer name, as in `columnLines-edges`; a type's name in a name, as in `walk_Meets`, keeps its
capital. Names that are imported from the toolchain keep their spelling.

    tools/snake_case.py            rename
    tools/snake_case.py --list     print the words and what they become
"""
import glob
import re
import sys

# Words whose parts are not words by themselves, or that would fall together with another name.
SPECIAL = {
    "lastD": "last_or",
    "getD": "get_or",
    "goesOn": "goes_on_is",
}

# Laws that would get the name of the definition that they speak of.
LAWS = {
    "crates/grid/proofs/CellLaws.antt": {"cell_cuts": "cell_cuts_lem"},
    "crates/cell/proofs/CallLaws.antt": {"cell_cuts": "cell_cuts_lem"},
    "crates/replies/proofs/RoomLaws.antt": {
        "cell_cuts": "cell_cuts_lem",
        "cell_room": "cell_room_lem",
    },
    "crates/drawing/proofs/CallLaws.antt": {"table_taken": "table_taken_lem"},
    "crates/drawing/proofs/ReadRules.antt": {
        "all_start": "all_start_lem",
        "in_order": "in_order_lem",
    },
    "crates/html/proofs/PageLengthLaws.antt": {"rows_taken": "rows_taken_lem"},
}

# What the toolchain's script turns in sources and definitions and leaves in edits: a projection is
# written tight, and these words have another name.
EDITS = [
    (re.compile(r"\(([a-z][A-Za-z0-9_']*(?: \.[A-Za-z0-9_]+)+)\)"), lambda m: m.group(1).replace(" ", "")),
    (re.compile(r"\b([a-z]+) \.([a-z][A-Za-z]*)"), r"\1.\2"),
    (re.compile(r"\b([a-z]+\.[a-z]+) \.([a-z][A-Za-z]*)"), r"\1.\2"),
]

# What sources and proofs import from the toolchain keeps its name.
KEPT = set()

WORD = re.compile(r"(?<![A-Za-z0-9_«])[a-z][A-Za-z0-9_]*[A-Z][A-Za-z0-9_]*")
USE = re.compile(r"(?m)^\s*(?:ghost )?(?:pub )?use ([A-Za-z0-9_.·']+)\.\{([^}]*)\}")


def files():
    found = []
    for pattern in (
        "crates/*/specs/**/*.antt",
        "crates/*/proofs/**/*.antt",
        "crates/*/src/**/*.rt",
        "crates/*/must-fail/*.edit",
        "README.md",
        "docs/**/*.md",
    ):
        found += glob.glob(pattern, recursive=True)
    return sorted(set(found))


def crate_names():
    names = set()
    for line in open("crates.txt"):
        line = line.split("#")[0].strip()
        if line:
            names.add(line.split(":")[0].split()[0])
    return names


def is_own(module, crates):
    parts = module.split(".")
    return len(parts) > 1 and parts[0] == "Rattle" and parts[1] in crates


def code(path, text):
    mark = "--" if path.endswith(".antt") else "//"
    return "\n".join(line.split(mark)[0] for line in text.split("\n"))


def snake(word):
    if word in SPECIAL:
        return SPECIAL[word]
    for old, new in SPECIAL.items():
        word = re.sub(old + r"(?![a-z])", new, word)
    return re.sub(r"(?<=[a-z0-9])([A-Z])", lambda m: "_" + m.group(1).lower(), word)


def table():
    crates = crate_names()
    words, foreign = set(), set(KEPT)
    for path in files():
        if not path.endswith((".antt", ".rt")):
            continue
        text = open(path).read()
        for module, items in USE.findall(text):
            if not is_own(module, crates):
                for item in items.split(","):
                    foreign.update(WORD.findall(item.split(" as ")[0]))
        words.update(WORD.findall(code(path, text)))
    renamed = {}
    for word in sorted(words - foreign):
        new = snake(word)
        if new != word:
            renamed[word] = new
    return renamed


def main():
    renamed = table()
    if "--list" in sys.argv:
        for old, new in renamed.items():
            print(old, new)
        return
    for path in files():
        with open(path, encoding="utf-8") as f:
            text = before = f.read()
        if path.endswith(".md"):
            # In a page only what stands between backticks is a name.
            turned = re.sub(
                r"`[^`\n]*`",
                lambda m: WORD.sub(lambda w: renamed.get(w.group(0), w.group(0)), m.group(0)),
                text,
            )
        else:
            for old, new in LAWS.get(path, {}).items():
                text = re.sub(r"(?<![A-Za-z0-9_.-])" + old + r"(?![A-Za-z0-9_'-])", new, text)
            if path.endswith(".edit"):
                for old, new in EDITS:
                    text = old.sub(new, text)
            turned = WORD.sub(
                lambda w: renamed.get(w.group(0))
                or (snake(w.group(0)) if path.endswith(".edit") else w.group(0)),
                text,
            )
        if turned != before:
            with open(path, "w", encoding="utf-8") as f:
                f.write(turned)


main()
