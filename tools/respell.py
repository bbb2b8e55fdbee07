#!/usr/bin/env python3
"""Spells the repository's own definitions and lemmas in snake case, after port.py.

usage: tools/respell.py [ROOT]     rewrites crates/*/{specs,proofs}/**/*.antt and crates/*/src/**/*.rt in place

Run it once, right after port.py: in proofs of today's form it would turn names of goals too.

What turns is each word of the .antt files, and each name that a source brings for its clauses, that begins with a small letter and has a capital inside,
as 'entryIn' to 'entry_in', unless a file imports it from the kit: also in clauses and 'ghost use' items of the sources and in the code spans of
comments. A part of a name that is joined by a dash turns too, as 'length-digitsIn' to 'length-digits_in'; a dash stays in a lemma's name. A dash in a
field, a constructor or a definition of specs/ becomes an underscore. Modules, types and Rust's names keep theirs. LEMMAS has the lemmas that would meet
a definition's new spelling: they get the ending '_lem'.
"""

import os
import re
import sys

ROOT = sys.argv[1] if len(sys.argv) > 1 else "."
CRATES = os.path.join(ROOT, "crates")
WORD = re.compile(r'[^\s(){}.;,@"«»`]+')
# Lemmas, by crate, whose name is the new spelling of a definition: 'inOrder' becomes 'in_order', so the lemma 'in_order' becomes 'in_order_lem'.
LEMMAS = {
    "wing_node": ["by_number"],
    "wing_wire": ["fresh_in"],
    "wing_mirror": ["in_order", "same_id"],
    "wing_listing": ["sent_back"],
    "promises": ["same_id", "no_place", "no_line"],
}


def snake(word):
    word = re.sub(r"(?<=[a-z0-9])([A-Z])(?=[a-z0-9_'\-]|$)", lambda m: "_" + m.group(1).lower(), word)
    return word


def texts(kind):
    for folder, dirs, files in os.walk(CRATES):
        dirs[:] = sorted(d for d in dirs if d not in ("out", "data"))
        for f in sorted(files):
            if f.endswith(kind):
                path = os.path.join(folder, f)
                with open(path, encoding="utf-8") as t:
                    yield path, t.read()


def turns(word):
    return re.match(r"[a-z]", word) and re.search(r"[a-z0-9][A-Z]", word)


def dashed(text):
    """The fields, constructors and definitions of a page of specs/ whose names have a dash."""
    found = set()
    for line in text.split("\n"):
        m = re.match(r"(?:  (?:pub )?|(?:abbrev |unfoldable )?pub )([a-z][\w'-]*-[\w'-]*) :", line)
        if m:
            found.add(m.group(1))
    return found


def main():
    own = set(os.listdir(CRATES))
    names, kit, words, joined = set(), set(), set(), set()
    for path, text in texts(".antt"):
        for m in re.finditer(r"^use ([^\s{]+?)(?: as \S+|\.\{([^}]*)\})", text, re.M):
            parts = m.group(1).split(".")
            if parts[0] == "Rattle" and parts[1] in own:
                continue
            for item in (m.group(2) or "").split(","):
                kit.add(item.strip().split(" as ")[0])
        bare = re.sub(r"--[^\n]*", "", text)
        words.update(WORD.findall(bare))
        if "/specs/" in path:
            joined |= dashed(bare)
    for _, text in texts(".rt"):
        for m in re.finditer(r"^ghost use [^{;]*\{([^}]*)\}", text, re.M):
            words.update(item.strip().split(" as ")[-1] for item in m.group(1).split(","))
    names = {w for w in words if turns(w)} - kit
    table = {w: snake(w) for w in names}
    table.update({w: snake(w).replace("-", "_") for w in joined})
    back = {}
    for old, new in sorted(table.items()):
        if new in kit or new in back:
            print(f"meets another: {old} would be {new}")
        back[new] = old
    if not table:
        return print("nothing to turn")
    changed = 0
    for kind in (".antt", ".rt"):
        for path, text in texts(kind):
            before = text

            def turn(m):
                return table.get(m.group(0), m.group(0))

            if kind == ".rt":
                pieces = re.split(r'("(?:\\.|[^"\\])*")', text)
                new = "".join(p if i % 2 else WORD.sub(turn, p) for i, p in enumerate(pieces))
            else:
                crate = os.path.relpath(path, CRATES).split(os.sep)[0]
                lemmas = LEMMAS.get(crate, []) if "/proofs/" in path else []
                if lemmas:
                    text = re.sub(r"(?<![.\w'-])(%s)(?![\w'.-])" % "|".join(lemmas), r"\1_lem", text)
                new = WORD.sub(turn, text)
            if new != before:
                with open(path, "w", encoding="utf-8") as t:
                    t.write(new)
                changed += 1
    print(f"{len(table)} names, {changed} files")


if __name__ == "__main__":
    main()
