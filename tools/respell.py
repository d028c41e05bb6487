#!/usr/bin/env python3
"""Respells the repository's own definitions and lemmas in snake case, once, after the port of the language's spelling.

usage: python3 tools/respell.py FOLDER NAMES [--edits]

FOLDER holds crates/. NAMES is a file with lines 'old new', made by --list, and lines 'old new FILE' for one file alone. Each file of src/, specs/
and proofs/ gets the new names; with --edits the texts of must-fail/*.edit get them instead. A name that a file imports from the library stays.

    --list            prints the lines 'old new' instead: each name that specs/ and the lemma files declare and that is not in snake case

It is run once: a second run would turn what the lines for one file have made.
"""
import collections
import glob
import os
import re
import sys

NAME = re.compile(r"[^\s(){}.;,@\"«»`\[\]\\:]+")
DECLARED = re.compile(
    r"^\s*(?:(?:abbrev|unfoldable|pub|private)\s+)*(?:(?:data|record)\s+)?([^\s(){}.;,@\"«»`\[\]\\:]+)((?:\s+\{[^}]*\})*)\s*(?:\([^)]*\)\s*)*:\s"
)
IMPORT = re.compile(r"(?m)^\s*(?:ghost )?(?:pub )?use ([^\s{;]+?)\.?\{([^}]*)\}")


def files(root):
    for kind in ("specs", "proofs", "src"):
        for path in sorted(glob.glob(f"{root}/crates/*/{kind}/**/*", recursive=True)):
            if path.endswith((".antt", ".rt")):
                yield path


def is_answer(path):
    return os.path.basename(path) in ("Proof.antt", "Answers.antt", "Invariants.antt")


def snake(name):
    if re.match("[a-z]", name):
        name = re.sub(r"(?<=[a-z0-9])([A-Z])", lambda it: "_" + it[1].lower(), name)
    return re.sub(r"(?<=\w)-(?=\w)", "_", name)


def listed(root):
    defined, lemmas = set(), set()
    for path in files(root):
        if path.endswith(".antt") and not is_answer(path):
            for line in open(path, encoding="utf-8"):
                found = DECLARED.match(line)
                if found and not line.lstrip().startswith("--"):
                    (defined if "/specs/" in path and not re.search(r"\w-\w", found[1]) else lemmas).add(found[1])
    both = defined | lemmas
    taken = {snake(name) for name in both if not re.search(r"\w-\w", name)}
    for name in sorted(both):
        new = snake(name)
        if new == name:
            continue
        if re.search(r"\w-\w", name) and new in taken:
            new += "_lem"
        print(name, new)


def kept_here(text, crates):
    """The names that a file takes from the library: they keep their spelling there."""
    kept = set()
    for path, names in IMPORT.findall(text):
        own = re.match(r"Rattle\.(\w+)\.", path)
        if not (own and own[1] in crates):
            kept |= {name.strip().split(" as ")[0] for name in names.split(",")}
    return kept


def turned(text, table, kept, ghost_only):
    def one(it):
        word = it[0]
        if word in table and word not in kept:
            return table[word]
        return word

    if not ghost_only:
        return NAME.sub(one, text)
    out = []
    for line in text.split("\n"):
        code, mark, said = line.partition("//")
        out.append(NAME.sub(one, code) + mark + said)
    return "\n".join(out)


def main():
    root = sys.argv[1]
    if "--list" in sys.argv:
        return listed(root)
    rows = [line.split() for line in open(sys.argv[2], encoding="utf-8")]
    everywhere = {row[0]: row[1] for row in rows if len(row) == 2}
    crates = set(os.listdir(f"{root}/crates"))
    paths = sorted(glob.glob(f"{root}/crates/*/must-fail/*.edit")) if "--edits" in sys.argv else list(files(root))
    for path in paths:
        text = open(path, encoding="utf-8").read()
        table = everywhere | {row[0]: row[1] for row in rows if len(row) == 3 and path.endswith("/" + row[2])}
        new = turned(text, table, kept_here(text, crates), path.endswith(".rt"))
        groups = collections.defaultdict(set)
        for word in set(NAME.findall(text)):
            groups[table.get(word, word)].add(word)
        for word, olds in groups.items():
            if len(olds) > 1:
                print("fall together:", path, word, *olds)
        if new != text:
            open(path, "w", encoding="utf-8").write(new)


main()
