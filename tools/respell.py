#!/usr/bin/env python3
"""Spells this repository's own definitions and lemmas as the kit spells its: words in snake case, types in camel case.

usage: python3 tools/respell.py [--check]      at the top of the repository, once, after port.py

A name is turned where a file of specs/ or proofs/ declares it (a definition, a lemma, a field, a constructor of a `data`),
everywhere in .antt, in .rt, in must-fail edits and in the pages. Functions of src/, exported C names, strings, inputs and
outputs have no such name. It says where two names would fall together.
"""
import collections
import glob
import os
import re
import sys

# The standards' own letters, and a property that was spelled as a word.
BY_HAND = {
    "A": "a_of",
    "P": "p_hash",
    "PBlocks": "p_hash_blocks",
    "K": "k256",
    "Ch": "ch",
    "Maj": "maj",
    "ROTR": "rotr",
    "SHR": "shr",
    "H⁰": "h0",
}
# A lemma that would have its definition's name gets _lem.
LEMMAS = {
    "block_in": ("extensions",),
    "ends_as": ("record_server",),
    "goes_on": ("record_server", "record_theorems"),
    "lines_after": ("table_edits",),
    "listed_found": ("table_edits", "theorems", "keytable"),
    "no_end": ("table_edits",),
    "plain_step": ("record_theorems",),
}
BY_HAND |= {n: n + "_lem" for n in LEMMAS}
# Such a name is turned only in the files of the crates that mean the definition or the lemma by it, and in no comment.
ONLY_IN = {"A": ("keys",), "P": ("keys",), "K": ("sha256_block", "sha256")} | LEMMAS
NAME = r"[^\s(){}.;,@\"«»\[\]|:`]+"
HEAD = re.compile(r"^\s*(?:(?:pub|abbrev|unfoldable) )*(?:(?:data|record|ruleset) )?(" + NAME + r")(?: +[({][^\n]*?[)}])* *:(?!:)", re.M)
CAMEL = re.compile(r"[a-z0-9][A-Z]")


def paths():
    for root, dirs, files in os.walk("."):
        dirs[:] = sorted(d for d in dirs if d not in (".git", "out", "tools"))
        for f in sorted(files):
            if f.endswith((".antt", ".rt", ".edit", ".md")) or root.startswith(("./tests", "./crates")) and f.endswith((".py", ".txt", ".tsv", ".json")):
                yield os.path.join(root, f)[2:]


def snake(name):
    return re.sub(r"(?<=[a-z0-9])[A-Z]", lambda m: "_" + m[0].lower(), name)


def declared():
    names = set()
    for p in glob.glob("crates/*/specs/**/*.antt", recursive=True) + glob.glob("crates/*/proofs/**/*.antt", recursive=True):
        if "/out/" in p:
            continue
        text = re.sub(r"--[^\n]*", "", open(p).read())
        for n in HEAD.findall(text):
            names.add(n)
    return names


def turned(name):
    """The name in the kit's spelling: each part between dashes by itself, and no type's name."""
    if name in BY_HAND:
        return BY_HAND[name]
    return "-".join(snake(p) if re.match("[a-z]", p) and CAMEL.search(p) else BY_HAND.get(p, p) for p in name.split("-"))


def main():
    names = declared()
    table = {n: turned(n) for n in sorted(names) if turned(n) != n}
    back = collections.defaultdict(list)
    for a, b in table.items():
        back[b].append(a)
    meet = [f"{' and '.join(o)} would both be {n}" for n, o in sorted(back.items()) if len(o) > 1]
    meet += [f"{table[n]} is declared already, beside {n}" for n in sorted(table) if table[n] in names and table[n] not in LEMMAS]
    print("\n".join(meet))
    print(len(table), "names")
    word = re.compile(r"(?<![\w'’.-])(?:" + "|".join(re.escape(n) for n in sorted(table, key=len, reverse=True)) + r")(?![\w'₀-₉⁰-⁹-])")
    field = re.compile(r"(?<=\w\.|[)}\]'₀-₉]\.)(?:" + "|".join(re.escape(n) for n in sorted(table, key=len, reverse=True)) + r")(?![\w'₀-₉⁰-⁹-])")

    def put(p):
        crate = p.split("/")[1] if p.startswith("crates/") else ""

        def new(m):
            n = m[0]
            line = m.string[m.string.rfind("\n", 0, m.start()) + 1:m.start()]
            if n in BY_HAND and (not p.endswith((".antt", ".rt", ".edit")) or n in ONLY_IN and crate not in ONLY_IN[n] or re.search(r"--|//|^#", line)):
                return n
            return table[n]

        return new

    n = 0
    for p in paths():
        text = open(p, encoding="utf-8").read()
        out = field.sub(put(p), word.sub(put(p), text))
        if out != text:
            n += 1
            if "--check" not in sys.argv:
                open(p, "w", encoding="utf-8").write(out)
    print(n, "files")


if __name__ == "__main__":
    main()
