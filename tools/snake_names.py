#!/usr/bin/env python3
"""Spells the repository's own definitions, fields and lemmas in snake case: closedTest as closed_test, bit-cases as bit_cases.

usage: python3 tools/snake_names.py [--check]      at the top of the repository, after port.py, once

What is declared in specs/ or proofs/ of a crate turns, everywhere in the crates, and camel case in code spans of README.md and docs/ too.
Goals, invariants and whatever else the check names keep their names, and so does a name that a file takes from a library.
It goes by spelling: run the check afterwards. It refuses where two names would fall together in one file.
"""

import os
import re
import sys

WORD = re.compile(r'[^\s(){}.;,@"«»`]+')
DECLARED = re.compile(
    r"^\s*(?:(?:abbrev|unfoldable|pub)\s+)*([^\s(){}.;,@\"«»`:]+)\s*:(?=\s)(.*)$"
)
RULESET = re.compile(r"^\s*(?:pub )?ruleset\s+(\S+)")
IMPORT = re.compile(r"\buse\s+([\w.·'+-]+?)\.\{([^}]*)\}")
MADE = re.compile(r"^\s*(?:goal|need|given)\.")
CAMEL = re.compile(r"(?:^|[-_])[a-z][a-z0-9]*[A-Z]")
PARTS = re.compile(r"[a-z][a-z0-9']*(?:[-_][a-z0-9']+)+")
# a lemma that would have the name of the definition that it is about
BESIDE = {
    "bit-and": "bit_of_and",
    "bit-or": "bit_of_or",
    "is-blank": "only_blank",
    "is-part": "is_part_lem",
    "reading-of": "reading_of_lem",
    "readings-in": "readings_in_lem",
    "tag-at": "tag_at_lem",
    "wrong-at": "wrong_at_lem",
}


def spelled(name):
    """The name in snake case; a name of another form as it is."""
    if name in BESIDE:
        return BESIDE[name]
    if CAMEL.search(name):
        name = re.sub(r"(?<=[a-z0-9])([A-Z])", lambda m: "_" + m[1].lower(), name)
    if PARTS.fullmatch(name) and "-" in name:
        name = name.replace("-", "_")
    return name


def files(root):
    for folder, dirs, names in os.walk(os.path.join(root, "crates")):
        dirs[:] = sorted(d for d in dirs if d != "out")
        for name in sorted(names):
            if name.endswith((".antt", ".rt")):
                yield os.path.join(folder, name)


def bare(text):
    return re.sub(r"--[^\n]*|//[^\n]*", "", text)


def declarations(texts):
    """Every name that a specs/ or proofs/ file declares, and the fields of records among them."""
    names, fields = set(), set()
    for path, text in texts.items():
        if not path.endswith(".antt"):
            continue
        in_record = False
        for line in bare(text).splitlines():
            if re.match(r"^(pub )?record |^record pub ", line):
                in_record = True
            elif line.strip() and not line.startswith(" "):
                in_record = False
            m = DECLARED.match(line)
            if m and not MADE.match(m[2]):
                names.add(m[1])
                if in_record and line.startswith("  "):
                    fields.add(m[1])
            m = RULESET.match(line)
            if m:
                names.add(m[1])
    return names, fields


def crates(root):
    inside = os.path.join(root, "crates")
    return {c for c in os.listdir(inside) if os.path.isdir(os.path.join(inside, c))}


def from_libraries(text, own):
    """The names that a file takes from a library: they keep their spelling."""
    kept = set()
    for m in IMPORT.finditer(text):
        head = m[1].split(".")
        if head[0] == "Rattle" and len(head) > 1 and head[1] in own:
            continue
        for item in m[2].split(","):
            words = item.split()
            if words:
                kept.add(words[0])
    return kept


def turned(text, table, fields, kept):
    def one(m):
        word = m[0]
        if word not in table or word in kept:
            return word
        before = text[m.start() - 1 : m.start()]
        if before == "." and word not in fields and not text[: m.start()].endswith(".{"):
            return word
        return table[word]

    return WORD.sub(one, text)


def in_docs(text, table):
    def span(m):
        return WORD.sub(lambda w: table.get(w[0], w[0]) if CAMEL.search(w[0]) else w[0], m[0])

    return re.sub(r"`[^`\n]+`", span, text)


def main(argv):
    root = "."
    texts = {}
    for path in files(root):
        with open(path, encoding="utf-8") as f:
            texts[path] = f.read()
    names, fields = declarations(texts)
    table = {n: spelled(n) for n in names if spelled(n) != n}
    own = crates(root)
    clashes = 0
    for path, text in sorted(texts.items()):
        words = set(WORD.findall(bare(text)))
        kept = from_libraries(text, own)
        for old in sorted(words & set(table)):
            if old not in kept and table[old] in words:
                print(f"{path}: {old} and {table[old]} would fall together")
                clashes += 1
        new = turned(text, table, fields, kept)
        if new != text and "--check" not in argv:
            with open(path, "w", encoding="utf-8") as f:
                f.write(new)
    backward = {}
    for old, new in table.items():
        backward.setdefault(new, []).append(old)
    for new, olds in sorted(backward.items()):
        if len(olds) > 1:
            print(f"{' and '.join(sorted(olds))} both become {new}")
    pages = ["README.md"] + [os.path.join("docs", n) for n in sorted(os.listdir("docs")) if n.endswith(".md") and n != "PORT.md"]
    for path in pages:
        with open(path, encoding="utf-8") as f:
            text = f.read()
        new = in_docs(text, table)
        if new != text and "--check" not in argv:
            with open(path, "w", encoding="utf-8") as f:
                f.write(new)
    print(f"{len(table)} names, {clashes} places to look at")
    return 0


if __name__ == "__main__":
    raise SystemExit(main(sys.argv[1:]))
