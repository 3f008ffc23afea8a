#!/usr/bin/env python3
"""Brings the names of the repository's own definitions, lemmas and record fields to today's spelling.

Types and modules stay in camel case; every other word is in snake case; a dash joins two names (`length-put16_at`,
`first_edge-suc`), and a plain word is added with an underscore (`count_turn`). Run once at the top of a checkout, after
the kit's port.py; it prints the names that it turned and stops, changing nothing, where two names fall together.
Rust names (functions, types, fields of src/), strings, inputs and outputs are not touched.
"""
import glob
import re
import sys

WORD = re.compile(r"[A-Za-z_][\w'′₀-₉]*(?:-[\w'′₀-₉]+)*")
SKIPPED = "use |unfolding |syntax |mod |pub mod |where|module |open |infix"
TOP = re.compile(r"(?!" + SKIPPED + r")(?:(?:abbrev|unfoldable|opaque|pub|data|record) )*([A-Za-z_][\w'′₀-₉-]*)(?: |$)")
FIELD = re.compile(r"\s+(?:(?:abbrev|unfoldable|pub|opaque) )*([a-z][\w'′₀-₉-]*) : ")
# words of the library that stand in the names of lemmas
LIBRARY = set("length get_or map take drop append mem set sets zero suc min cond reverse eqb leb ltb put16 put32".split())
# a lemma that would have its definition's name gets `_lem`
LEMMAS = (
    "check-book check-image edge-at edge-end edge-record edge-right first-in mark-in next-in other-right part-answer "
    "place-right record-bytes records-within state-at table-at trailer-right events-at part-records part-text"
).split()
BY_HAND = {name: name.replace("-", "_") + "_lem" for name in LEMMAS} | {"chains-of": "image_chains"}
# the same where port.py had turned the lemma's name already: these files speak of the lemma alone
BY_FILE = {
    "crates/image/proofs/Right.antt": "edge_in",
    "crates/image/proofs/Accepted.antt": "edge_in",
    "crates/compile/proofs/Back.antt": "place_at",
    "crates/compile/proofs/Reading.antt": "place_at",
    "crates/compile/proofs/Valid.antt": "start_right",
    "crates/demands/proofs/Images.antt": "place_after",
    "crates/demands/proofs/Demand3.antt": "place_after",
}
ALIASES = ["toldCompiled", "toldBook", "edgeBefore"]
# fields, read behind a dot only, that may have the name of another module's definition
APART = {"most_edges", "trailer_size"}


def snake(word):
    word = word.replace("getD", "get_or").replace("′", "'")
    if word[:1].isupper():
        return word
    return re.sub(r"(?<=[a-z0-9])([A-Z])", lambda m: "_" + m.group(1).lower(), word)


def files(*patterns):
    return sorted(f for p in patterns for f in glob.glob(p, recursive=True))


def main():
    defined, tops = {}, set()
    for path in files("crates/*/specs/*.antt", "crates/*/proofs/*.antt"):
        with open(path, encoding="utf-8") as f:
            for line in f:
                m = TOP.match(line)
                if m:
                    tops.add(m.group(1))
                m = m or FIELD.match(line)
                if m:
                    defined.setdefault(m.group(1), path)
    for name in ALIASES:
        defined.setdefault(name, "an import's other name, or a local one")
    names = {snake(n) for n in tops if "-" not in n} | LIBRARY

    def turned(name):
        if name in BY_HAND:
            return BY_HAND[name]
        parts = [snake(p) for p in name.split("-")]
        out = parts[0]
        for before, part in zip(parts, parts[1:]):
            out += ("-" if before in names and part in names else "_") + part
        return out

    table = {n: turned(n) for n in defined if turned(n) != n}
    # no two names may fall together
    owners = {}
    for n in defined:
        owners.setdefault(table.get(n, n), []).append(n)
    lemmas = set(BY_FILE.values())
    bad = {new: old for new, old in owners.items() if len(old) > 1 and new not in APART | lemmas}
    everywhere = set()
    for path in files("crates/**/*.antt", "crates/**/*.rt"):
        with open(path, encoding="utf-8") as f:
            everywhere |= set(WORD.findall(f.read()))
    for new, old in sorted(bad.items()):
        print("together:", new, old, [defined[o] for o in old])
    meets = sorted(n + " -> " + table[n] for n in table if table[n] in everywhere)
    print("also another word somewhere:", *meets, sep="\n  ")
    if bad or "--look" in sys.argv[1:]:
        return 1 if bad else 0
    for path in files("crates/**/*.antt", "crates/**/*.rt", "crates/*/must-fail/*.edit"):
        with open(path, encoding="utf-8") as f:
            text = f.read()
        own = {BY_FILE[path]: BY_FILE[path] + "_lem"} if path in BY_FILE else {}
        walk = path.endswith("/Proof.antt")

        def word(m):
            # behind a dot, a walk's step has the name of the function that was called there
            if walk and m.group(0) in BY_HAND and text[m.start() - 1 : m.start()] == ".":
                return m.group(0).replace("-", "_")
            return own.get(m.group(0)) or table.get(m.group(0), m.group(0))

        new = WORD.sub(word, text)
        if new != text:
            with open(path, "w", encoding="utf-8") as f:
                f.write(new)
    print("turned:", *(f"{n} -> {table[n]}" for n in sorted(table)), sep="\n  ")
    return 0


sys.exit(main())
