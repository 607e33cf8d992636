#!/usr/bin/env python3
"""Brings this repository's own definitions and lemmas to the library's spelling, once, after port.py.

usage: tools/respell.py [--list]   at the top of the repository; --list prints what it would rename

Words are in snake case. A dash joins two names of definitions (`length-append`); a plain word hangs on by `_` (`swap_is_a_swap`).
Types, modules and the names of src/ stay. Where two names would fall together, the lemma ends in `_lem`.
"""

import glob
import re
import sys

TOKEN = re.compile(r"[^\s(){}.;,@\"«»\[\]\\:`/|↦]+")
DECLARED = re.compile(r"^\s*(?:(?:unfoldable|abbrev|pub|pattern)\s+)*([^\s(){}.;,@\"«»\[\]\\:]+)\s*:(?!:)")
# Words of the library that stand in names of lemmas.
LIBRARY = set("length append map take drop set get_or zip zip_with flat_map replicate cons reverse cond and or not".split())


def read(path):
    with open(path, encoding="utf-8") as it:
        return it.read()


def files():
    found = {
        "antt": sorted(glob.glob("crates/*/specs/**/*.antt", recursive=True) + glob.glob("crates/*/proofs/**/*.antt", recursive=True)),
        "rt": sorted(glob.glob("crates/*/src/**/*.rt", recursive=True)),
        "md": sorted(glob.glob("*.md") + glob.glob("docs/*.md") + glob.glob("examples/*.md") + glob.glob("tests/*.md")),
    }
    return found


def declared(texts):
    names = set()
    for path, text in texts.items():
        if path.endswith("/Proof.antt"):
            continue
        for line in text.split("\n"):
            m = DECLARED.match(line)
            if m and not line.lstrip().startswith("--"):
                names.add(m.group(1))
    return names


def snake(word):
    word = re.sub(r"([a-z0-9])([A-Z])", r"\1_\2", word)
    return word.lower()


def is_type(name):
    return name[:1].isupper() and "-" not in name


def new_names(names, taken):
    words = {snake(n) for n in names if "-" not in n and not is_type(n) and len(n) > 1} | LIBRARY
    new = {}
    for n in sorted(names):
        if is_type(n):
            continue
        parts = [snake(p.replace("getD", "get_or")) for p in n.split("-")]
        it = parts[0]
        for left, right in zip(parts, parts[1:]):
            it += ("-" if left in words and right in words else "_") + right
        if it != n:
            new[n] = it
    # Definitions first: a lemma gives way to a definition, and to what stands already.
    used = set(taken)
    final = {}
    for n in sorted(new, key=lambda n: ("-" in n, n)):
        it = new[n]
        while it in used:
            it += "_lem"
        used.add(it)
        final[n] = it
    return final


def rename(text, new, only_ghost=False):
    def one(m):
        return new.get(m.group(0), m.group(0))

    return TOKEN.sub(one, text)


def in_ticks(text, new):
    return re.sub(r"`[^`\n]+`", lambda m: rename(m.group(0), new), text)


def main(argv):
    found = files()
    texts = {p: read(p) for kind in found for p in found[kind]}
    # port.py gave this lemma the name that a definition is to have.
    carry = "crates/carry/specs/CarryLaws.antt"
    texts[carry] = re.sub(r"\bhead_at\b", "head_at_lem", texts[carry])
    antt = {p: texts[p] for p in found["antt"]}
    names = declared(antt)
    # What a name could fall together with: every word of specs/ and of lemma files, but no comment and no part of a path.
    taken = set()
    for path, text in antt.items():
        if not path.endswith("/Proof.antt"):
            taken |= set(TOKEN.findall(re.sub(r"--.*|\bRattle\.[^{\s]*", "", text)))
    new = new_names(names, taken)
    if "--list" in argv:
        for n, it in sorted(new.items()):
            print(n, it)
        return 0
    for path, text in texts.items():
        if path.endswith(".md"):
            out = in_ticks(text, new)
        else:
            out = rename(text, new)
        if out != text:
            with open(path, "w", encoding="utf-8") as it:
                it.write(out)
    print(len(new), "names respelt")
    return 0


if __name__ == "__main__":
    sys.exit(main(sys.argv[1:]))
