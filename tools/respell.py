#!/usr/bin/env python3
"""Respells the repository's own definitions and lemmas as today's Rattle spells names, and gives the crate `check`
another name, since the library has one of that name. Run once, at the top, after the toolchain's own port script.

A definition, a lemma, a record's field and a constructor are in snake case, a type and a fact in camel case. A dash
stays where it joins two names in the name of a lemma. Functions, strings, inputs and outputs keep their names, and so
do the goals that the check names after the code.
"""
import os
import re
import subprocess

# lemmas named by two names: the outer one, and the one that it is applied to
TWO_NAMES = set(
    "length-contents length-encode length-flat length-form length-twos length-words words-length drop-contents drop-flat "
    "twos-append twos-words word-twos decode-encode encode-decode atoms-decode count-decode put-put not-not not-and".split()
)
# names that the port script respelled by half
BY_HAND = {"get_d_words": "get_or-words", "getD-none": "get_or_none"}
CRATES = {"check": "check_sheets"}

WORD = re.compile(r"[\w◌'·₀-₉][\w◌'·₀-₉-]*")
DEFINED = re.compile(
    r"^\s*(?:(?:abbrev|unfoldable|pub|data|record|module)\s+)*([A-Za-z_][\w'·₀-₉-]*)\s*"
    r"(?:\([^()]*(?:\([^()]*\)[^()]*)*\)\s*|\{[^}]*\}\s*)*:\s*(.*)"
)
QUOTED = re.compile(r'"(?:[^"\\]|\\.)*"')


def files():
    for folder, dirs, names in os.walk("crates"):
        dirs[:] = sorted(d for d in dirs if d != "out")
        for name in sorted(names):
            if name.endswith((".antt", ".rt")):
                yield os.path.join(folder, name)


def read(path):
    with open(path, encoding="utf-8") as f:
        return f.read()


def respelled(name):
    if name[0].isupper():
        return "".join(w[:1].upper() + w[1:] for w in name.split("-"))
    return name.replace("-", "_")


def definitions():
    """The dashed names that the repository defines, with their new spelling. A goal is not its definition."""
    found = {}
    for path in files():
        if not path.endswith(".antt"):
            continue
        for line in read(path).split("\n"):
            m = DEFINED.match(line)
            if m and "-" in m[1] and not m[2].startswith("goal.") and m[1] not in TWO_NAMES:
                found[m[1]] = respelled(m[1])
    return found | BY_HAND


def turned(text, names, skip_strings):
    def words(part):
        return WORD.sub(lambda m: names.get(m[0], m[0]), part)

    if not skip_strings:
        return words(text)
    out, at = [], 0
    for m in QUOTED.finditer(text):
        out += [words(text[at : m.start()]), m[0]]
        at = m.end()
    return "".join(out) + words(text[at:])


def rename_crates():
    for old, new in CRATES.items():
        subprocess.run(["git", "mv", f"crates/{old}", f"crates/{new}"], check=True)
        with open("crates.txt", encoding="utf-8") as f:
            lines = f.read()
        with open("crates.txt", "w", encoding="utf-8") as f:
            f.write(re.sub(rf"\b{old}\b", new, lines))
        for path in files():
            text = read(path)
            now = re.sub(rf"\bRattle\.{old}\.", f"Rattle.{new}.", text)
            if now != text:
                with open(path, "w", encoding="utf-8") as f:
                    f.write(now)


def main():
    rename_crates()
    names = definitions()
    if len(set(names.values())) != len(names):
        raise SystemExit("respell: two names fall together")
    for path in files():
        text = read(path)
        now = turned(text, names, path.endswith(".rt"))
        if now != text:
            with open(path, "w", encoding="utf-8") as f:
                f.write(now)
    print(f"respell: {len(names)} names")


main()
