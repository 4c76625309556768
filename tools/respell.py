#!/usr/bin/env python3
"""Spells the repository's own definitions and lemmas as today's Rattle does: words of lower case with `_` between them.

usage: tools/respell.py [--check] [FOLDER]

FOLDER, the current one if none is given, has crates/. Every name of the antt files that begins with a small letter and has a
capital behind it, as `readLeb`, is respelled, as `read_leb`: definitions, lemmas, fields, constructors and bound variables. In a
name with dashes each part is a name of its own. Types, facts and modules keep their capitals. Strings keep their text, and so does the code of src/, where no
such name stands outside clauses. It stops, and writes nothing, where two names would fall together. --check writes nothing, and
lists the names, and those that src/ or the antt files have already: a field, a parameter or a function there.
"""
import os
import re
import sys

# A fact begins with a capital, and this one did not; the others would fall together with a name that is there.
OWN = {
    "atMost": "AtMost",
    "headerOBU": "header_obu_bytes",
    "keyOBU": "key_obu_bytes",
    "goldenOBU": "golden_obu_bytes",
}
# Lemmas that have the name which their definition gets, by the file that has them or cites them.
LEMMAS = {
    "crates/bench/proofs/BoardLaws.antt": {"numbers_of": "numbers_of_lem", "front_of": "front_of_lem"},
    "crates/playback/proofs/GatherLaws.antt": {"has_room": "has_room_lem"},
    "crates/playback/proofs/WayLaws.antt": {"has_room": "has_room_lem"},
}
WORD = re.compile(r'"(?:[^"\\\n]|\\.)*"|(?<![A-Za-z0-9_])[A-Za-z_][A-Za-z0-9_]*')
CAMEL = re.compile(r"[a-z][a-z0-9_]*[A-Z][A-Za-z0-9_]*\Z")


def snake(word):
    word = re.sub(r"([A-Z])(?=[A-Z][a-z])", r"\1_", word)
    return re.sub(r"(?<=[a-z0-9])([A-Z])", r"_\1", word).lower()


def files(root):
    for folder, dirs, names in os.walk(os.path.join(root, "crates")):
        dirs[:] = sorted(d for d in dirs if d != "out")
        for name in sorted(names):
            if name.endswith((".antt", ".rt", ".edit")):
                yield os.path.join(folder, name)


def words(text):
    return (m.group() for m in WORD.finditer(text) if not m.group().startswith('"'))


def main(argv):
    check = "--check" in argv
    root = next((a for a in argv if not a.startswith("-")), ".")
    texts = {}
    for path in files(root):
        with open(path, encoding="utf-8") as f:
            texts[path] = f.read()
    camel, seen = set(), set()
    for path, text in texts.items():
        if path.endswith(".antt"):
            code = re.sub(r"(?m)(^|\s)--.*$", r"\1", text)
            camel |= {w for w in words(code) if CAMEL.match(w)}
            seen |= set(words(code))
        elif path.endswith(".rt"):
            seen |= set(words(re.sub(r"(?m)//.*$", "", text)))
    to = {w: OWN.get(w) or snake(w) for w in camel}
    clash = sorted((w, n) for w, n in to.items() if n in seen)
    twice = sorted(n for n in set(to.values()) if list(to.values()).count(n) > 1)
    for n in twice:
        print(f"falls together: {[w for w in to if to[w] == n]} -> {n}")
    if check:
        for w in sorted(to):
            print(w, to[w] + (", which is there" if (w, to[w]) in clash else ""))
    if check or twice:
        return bool(twice)
    changed = 0
    for path, text in texts.items():
        own = {}
        for place, lemmas in LEMMAS.items():
            if place in path.replace(os.sep, "/"):
                own = lemmas
        new = WORD.sub(lambda m: own.get(m.group()) or to.get(m.group(), m.group()), text)
        if new != text:
            changed += 1
            with open(path, "w", encoding="utf-8") as f:
                f.write(new)
    print(f"respell: {len(to)} names in {changed} files")
    return 0


if __name__ == "__main__":
    raise SystemExit(main(sys.argv[1:]))
