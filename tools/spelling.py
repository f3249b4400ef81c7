#!/usr/bin/env python3
"""Brings the names of definitions, lemmas and fields to one spelling: words in snake case, and a dash only between two names.

usage: tools/spelling.py [--list]     at the top of a checkout, once, after the language's own script; --list prints old and new

A name of specs/ or proofs/ is turned part by part: `sumIn-count` is `sum_in-count`, since `sumIn` and `count` are names of their own, and
`digit-is` is `digit_is`. Types and modules keep their capitals. A lemma whose new name is a definition's gets `_lem`. Functions of src/, names
exported to C, strings, inputs and outputs keep their names. Documents, must-fail edits and stored pages follow.
"""

import glob
import os
import re
import sys

ROOT = os.path.dirname(os.path.dirname(os.path.abspath(__file__)))
# Names of the library that stand on either side of a dash.
LIBRARY = set("length take drop append get_or set sets map sum all any filter reverse".split())
SPECIAL = {"sameAnswer": "answers_equal", "noKey": "key_of_none", "metAt": "first_met_at", "flagWord": "word_of_flag"}
HEAD = re.compile(
    r"^ *((?:(?:abbrev|unfoldable|pub|opaque|record|data|irreducible|instance|private)\s+)*)([^\s:(){}\[\]=,;.]+)(?:\s+(?:\S.*)?:(?= |$)|\s*:(?= |$))"
)
NO_NAMES = {"use", "--", "where", "in", "let", "elim"}
PART = r"A-Za-z0-9_'₀-₉′-"


def statements(root):
    return sorted(glob.glob(os.path.join(root, "crates/*/specs/**/*.antt"), recursive=True) + glob.glob(os.path.join(root, "crates/*/proofs/*.antt")))


def declared(root):
    """The names that files of specs/ and of proofs/ declare, with whether each stands at the head of a line."""
    names = {}
    for path in statements(root):
        with open(path, encoding="utf-8") as lines:
            for line in lines:
                found = HEAD.match(line)
                if found and found[2] not in NO_NAMES:
                    inner = line.startswith(" ")
                    if inner and "pub" not in found[1] and not re.match(r"^  \S+ :", line) and not re.match(r"^ +[a-z]+[A-Z][A-Za-z]* :", line):
                        continue
                    names[found[2]] = names.get(found[2], False) or not inner
    return names


def snake(part):
    if part == "getD":
        return "get_or"
    return re.sub(r"(?<=[a-z0-9])([A-Z])", lambda it: "_" + it[1].lower(), part)


def turned(name, known):
    old, new = name.split("-"), [snake(it) for it in name.split("-")]
    out = new[0]
    for at in range(1, len(old)):
        apart = all(old[i] in known or new[i] in known for i in (at - 1, at))
        out += ("-" if apart else "_") + new[at]
    return out


def table(root):
    names = declared(root)
    known = set(names) | LIBRARY
    new = {}
    for name in sorted(names):
        if name[0].isupper() and "-" not in name and "_" not in name:
            continue
        to = SPECIAL.get(name) or turned(name, known)
        if to != name:
            new[name] = to
    definitions = {to for name, to in new.items() if "-" not in name}
    for name, to in new.items():
        if "-" in name and (to in definitions or to in names):
            new[name] = to + "_lem"
    rest = [it for it in names if it not in new]
    for name, to in new.items():
        assert to not in rest, (name, to)
    assert len(set(new.values())) == len(new)
    return new


def in_text(text, new):
    """The text with each name turned. A dash, a letter, a digit or a prime on either side makes another name."""
    return re.sub(rf"(?<![{PART}])[{PART}]+", lambda it: new.get(it[0], it[0]), text)


def in_proof(text, new):
    """As in_text, but a name after a dot is a field of Rattle's own, unless it is one with a capital: those are fields of specs/."""

    def one(it):
        if it[1] and "-" in it[2]:
            return it[0]
        return it[1] + new.get(it[2], it[2])

    return re.sub(rf"(\.?)(?<![{PART}])([{PART}]+)", one, text)


def main(argv):
    new = table(ROOT)
    if argv == ["--list"]:
        print("\n".join(f"{a}\t{b}" for a, b in sorted(new.items())))
        return
    inside = [p for ext in ("antt", "rt", "edit") for p in glob.glob(os.path.join(ROOT, "crates/**/*." + ext), recursive=True)]
    pages = glob.glob(os.path.join(ROOT, "*.md")) + glob.glob(os.path.join(ROOT, "docs/**/*.md"), recursive=True)
    for path in sorted(inside + pages):
        with open(path, encoding="utf-8") as f:
            text = f.read()
        to = in_proof(text, new) if "/proofs/" in path else in_text(text, new)
        if to != text:
            with open(path, "w", encoding="utf-8") as f:
                f.write(to)


if __name__ == "__main__":
    main(sys.argv[1:])
