#!/usr/bin/env python3
"""Spells the repository's own definitions and lemmas as today's Rattle does: words in snake case, a dash only between two names.

usage: python3 tools/respell.py [--list]      at the top of the repository, once, after port.py

Types, facts spelled as types, modules, functions of src/ and exported names keep their spelling. Where the new name would meet another
one, FALLS_TOGETHER says what is written in its place. --list prints the table of names and changes nothing.
"""

import glob
import re
import sys

NAME = r"[^\s(){}.;,@\"«»:\[\]|&!?`]+"
DECLARED = re.compile(r"(?m)^( *)((?:pub |abbrev |unfoldable |data |record |instance )*)(" + NAME + r")((?: *[({][^(){}]*[)}])*) :(?= |$)")
HUMP = re.compile(r"(?<=[a-z0-9])[A-Z](?=[a-z0-9]|$|-|')")
# Words of the library that a lemma of ours is named after.
LIBRARY = set(
    "length take drop map append suc zero add mul sub mod div pow get_or set sum list filter reverse cons ones fold min max eqb replicate".split()
)
# What a name is called where its plain new spelling is taken already.
FALLS_TOGETHER = {
    "isRead": "is_a_reading",
    "read_left": "read_left_lem",
    "smallCases": "small_case_list",
    "tellingCases": "telling_case_list",
    "rowCases": "row_case_list",
    "small-archive": "small_archive_is",
    "shownOf": "shown_among",
    "inOrder": "in_rarest_order",
    "zero-half": "zero_half_size",
    "one-half": "one_half_size",
    "moves_from": "moves_begin",
}


def texts():
    for part in ("specs", "proofs"):
        for path in sorted(glob.glob(f"crates/*/{part}/**/*.antt", recursive=True)):
            yield path
    yield from sorted(glob.glob("crates/*/src/**/*.rt", recursive=True))


def words(name):
    return HUMP.sub(lambda m: "_" + m[0].lower(), name)


def declared():
    """Each name that a text of ours declares: whether in specs/ too, whether it is a fact, and whether it is a word that lemmas are named after."""
    out = {}
    for path in texts():
        if path.endswith(".rt"):
            continue
        with open(path, encoding="utf-8") as f:
            text = f.read()
        for m in DECLARED.finditer(text):
            name, rest = m[3], text[m.end() : text.find("\n", m.end())]
            if re.match(r"[A-Z◌+]", name) or not re.search(r"[A-Za-z]", name):
                continue
            # An answer or a walk of a function's proof, which is named after the code.
            if path.endswith("/Proof.antt") and (rest.startswith((" tie.", " statement", " {M : ", " {F : ")) or name.endswith("-spec")):
                continue
            spec, fact, word = out.get(name, (False, False, False))
            out[name] = (spec or "/specs/" in path, fact or bool(re.search(r"→ Type 0$", rest)), word or bool(re.search("abbrev|unfoldable", m[2])))
    return out


def table():
    names = declared()
    ours = {words(n) for n, (_, _, word) in names.items() if word and "-" not in n}
    both = ours | LIBRARY
    out = {}
    for name, (spec, fact, _) in names.items():
        if fact:
            new = "".join(it[0].upper() + it[1:] for it in re.split("[-_]", name))
            if new != name:
                out[name] = new
            continue
        if name in FALLS_TOGETHER:
            out[name] = FALLS_TOGETHER[name]
            continue
        parts = words(name).split("-")
        if len(parts) == 1:
            new = parts[0]
        elif spec:
            new = "_".join(parts)
        else:
            new = parts[0]
            for a, b in zip(parts, parts[1:]):
                new += ("-" if a in both and b in both and not b.isdigit() else "_") + b
        if new != name:
            out[name] = new
    # A lemma that would have the name of what it is about is called so.
    said = {out.get(name, name) for name in names if "-" not in name}
    for name in names:
        if "-" in name and name not in FALLS_TOGETHER and out.get(name, name) in said:
            out[name] += "_lem"
    return out


TOKEN = re.compile(r"[^\s(){}.;,@\"«»:\[\]|&!?`]+")


def main():
    t = table()
    if "--list" in sys.argv:
        for a, b in sorted(t.items()):
            print(a, b)
        return
    paths = list(texts()) + sorted(glob.glob("crates/*/must-fail/*.edit"))
    for path in paths:
        with open(path, encoding="utf-8") as f:
            old = f.read()
        turn = lambda text: TOKEN.sub(lambda m: t.get(m[0], m[0]), text)
        # What stands in quotes in the code is what a program says, and stays.
        new = "".join(it if it.startswith('"') else turn(it) for it in re.split(r'("(?:[^"\\\n]|\\.)*")', old)) if path.endswith(".rt") else turn(old)
        if new != old:
            with open(path, "w", encoding="utf-8") as f:
                f.write(new)


if __name__ == "__main__":
    main()
