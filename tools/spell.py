#!/usr/bin/env python3
"""Spells the names of this repository's definitions and lemmas in snake case: leftSides becomes left_sides, kept-fold-turn becomes kept_fold_turn.

usage: tools/spell.py          at the top of the repository

It turns whole words in the .antt files, in the clauses and imports of the .rt files, in must-fail edits and in the pages. A name of the library stays, and so do the
names that Rattle makes (behind a dot in a proof, and those of a loop). A second run changes nothing.
"""

import os
import re
import sys

WORD = re.compile(r"(?<![A-Za-z0-9_'₀-₉-])[A-Za-z_][A-Za-z0-9_'₀-₉-]*")
DECLARED = re.compile(r"^[ \t]*(?:(?:abbrev|unfoldable|pub|data|record) )*([A-Za-z_][A-Za-z0-9_'₀-₉-]*)(?: *[({][^{}()\n]*[)}])* :", re.M)
IMPORT = re.compile(r"\buse ([^\s;{]+)\.\{([^}]*)\}")
MADE = re.compile(r"(Inv|Need|invariant|decreases)-")
LINE = re.compile(r"(?m)^(.*?)((?:(?<!\S)--(?!\S).*)?)$")
LEMMAS = ("bit-and", "bit-or", "entry_closes", "item_count")
CODE = re.compile(r"ghost use [^;]*;|(?:requires|ensures)(?: \w+)? \{(?:[^{}]|\{[^{}]*\})*\}|using\([^)]*\)|unfolding\([^)]*\)")


def is_camel(word):
    return bool(re.match(r"[a-z]", word)) and bool(re.search(r"[a-z0-9][A-Z]", word))


def snake(word):
    """A type's name keeps its capitals."""
    parts = [re.sub(r"(?<=[a-z0-9])[A-Z]", lambda m: "_" + m[0].lower(), p) if is_camel(p) else p for p in word.split("-")]
    return "_".join(parts)


def files(top, endings):
    for folder, folders, names in os.walk(top):
        folders[:] = sorted(d for d in folders if d not in ("out", ".git"))
        for name in sorted(names):
            if name.endswith(endings):
                yield os.path.join(folder, name)


def read(path):
    with open(path, encoding="utf-8") as f:
        return f.read()


def of_library(text, crates):
    """What a file imports from libraries."""
    names = set()
    for path, items in IMPORT.findall(text):
        step = path.split(".")
        if step[0] != "Rattle" or step[1] not in crates:
            names.update(re.split(r" as ", item.strip())[0] for item in items.split(","))
    return names


def main():
    crates = set(os.listdir("crates"))
    texts = {p: read(p) for p in files("crates", (".antt", ".rt", ".edit"))}
    declared, taken = set(), set()
    for path, text in texts.items():
        if path.endswith(".antt"):
            code = re.sub(r"(?m)(^|\s)--\s.*$", "", text)
            declared |= {n for n in DECLARED.findall(code) if not MADE.match(n)}
            declared |= {w for w in WORD.findall(code) if is_camel(w)}
    turned = {n: snake(n) for n in declared if n != snake(n)}
    # A lemma that would have its function's name gets `_lem`.
    plain = {snake(n) for n in declared if is_camel(n)} | {n for n in declared if n == snake(n)}
    turned = {n: new + "_lem" if "-" in n and (new in plain or n in LEMMAS) else new for n, new in turned.items()}
    turned |= {n: n + "_lem" for n in LEMMAS if "-" not in n and n in turned.values()}
    for path, text in texts.items():
        if path.endswith(".antt"):
            code = re.sub(r"(?m)(^|\s)--\s.*$|^use [^\n{]*", "", text)
            taken |= set(re.findall(r"(?<!\.)" + WORD.pattern + r"(?![A-Za-z0-9_'₀-₉.-])", code)) & set(turned.values())
    for name in sorted(n for n in turned if turned[n] in taken):
        print(f"look: {name} becomes {turned[name]}, which is a word of some file already")
    seen = {}
    for name, new in sorted(turned.items()):
        if new in seen:
            print(f"look: {name} and {seen[new]} both become {new}")
        seen[new] = name

    def turn(text, library, behind_dots):
        def word(m):
            w = m[0]
            if w in library or w not in turned:
                return w
            if "-" in w and not behind_dots and m.start() and m.string[m.start() - 1] == ".":
                return w
            return turned[w]

        return WORD.sub(word, text)

    def quoted(text, library):
        return re.sub(r"`[^`\n]*`", lambda m: turn(m[0], library, True), text)

    for path, text in texts.items():
        library = of_library(text, crates)
        if path.endswith(".antt"):
            behind_dots = os.path.basename(path) != "Proof.antt"
            new = LINE.sub(lambda m: turn(m[1], library, behind_dots) + quoted(m[2], library), text)
        elif path.endswith(".rt"):
            new = CODE.sub(lambda m: turn(m[0], library, True), text)
            new = re.sub(r"(?m)//.*$", lambda m: quoted(m[0], library), new)
        elif "file: specs/" in text:
            new = re.sub(r"(?m)^(?:old|new):.*$", lambda m: turn(m[0], library, True), text)
        else:
            new = text
        if new != text:
            with open(path, "w", encoding="utf-8") as f:
                f.write(new)
    names = set(turned.values()) | {n for t in texts.values() for n in DECLARED.findall(t)}
    for path in [*files("docs", (".md",)), "README.md"]:
        text = read(path)
        new = re.sub(r"`[^`\n]*`", lambda m: WORD.sub(lambda w: snake(w[0]) if (is_camel(w[0]) or "-" in w[0]) and snake(w[0]) in names else w[0], m[0]), text)
        if new != text:
            with open(path, "w", encoding="utf-8") as f:
                f.write(new)
    return 0


if __name__ == "__main__":
    sys.exit(main())
