"""Sizes, the map, the dependencies and the must-fail edits.

No file over 400 lines, stored output (stdin, stdout), Cargo.lock, docs/CLAIMS.md, docs/DECISIONS.md, docs/STATEMENTS.md, docs/DESIGN-PASS.md and docs/PORT.md excepted: the
three before the last go through document 01 sentence by sentence, the last lists theorems whole. No body of a function of Rattle over 40 lines or with two loops. README.md's map has the crates of crates.txt under the same
headings in the same order. A crate lists the crates that its files name, and no other. The text that an edit replaces stands in its file once."""

import re

from source import CRATE_NAMED

LONGEST_FILE, LONGEST_FUNCTION = 400, 40
UNMEASURED = re.compile(r"(^|/)(stdin|stdout|Cargo\.lock)$|^docs/(CLAIMS|DECISIONS|DESIGN-PASS|STATEMENTS|PORT)\.md$")
LOOP = re.compile(r"^\s*(?:'\w+: )?(?:let (?:mut )?\w+(?:: [^=]+)? = )?(?:while|for|loop)\b", re.M)
KIT = {"check", "libc", "io", "os", "bytes"}


def check(tree):
    return sizes(tree) + readme_map(tree) + dependencies(tree) + edits(tree)


def sizes(tree):
    faults = []
    for path, text in sorted(tree.text.items()):
        count = len(text.splitlines())
        if count > LONGEST_FILE and not UNMEASURED.search(path):
            faults.append((path, LONGEST_FILE + 1, f"{count} lines, at most {LONGEST_FILE}"))
    for file in tree.code.values():
        for block in file.functions():
            count = block.end - block.body - 1
            if count > LONGEST_FUNCTION:
                faults.append((file.path, block.line + 1, f"the body of {block.name} has {count} lines, at most {LONGEST_FUNCTION}"))
            loops = len(LOOP.findall("\n".join(file.plain[block.body : block.end + 1])))
            if loops > 1:
                faults.append((file.path, block.line + 1, f"{block.name} has {loops} loops, at most one"))
    return faults


def readme_map(tree):
    faults, layers, line_of, inside = [], [], {}, False
    for number, line in enumerate(tree.text.get("README.md", "").splitlines(), 1):
        if line.startswith("## "):
            inside = line == "## The map"
        heading = re.match(r"^### (.*)$", line)
        if inside and heading:
            layers.append((heading.group(1), []))
            line_of[heading.group(1)] = number
        row = re.match(r"^\| `(\w+)` \|", line)
        if inside and row and layers:
            layers[-1][1].append(row.group(1))
            line_of[row.group(1)] = number
    shown = [c for _, crates in layers for c in crates]
    for crate in tree.crates:
        if crate not in shown:
            faults.append(("crates.txt", tree.crate_line[crate], f"README.md's map has no row for {crate}"))
    for crate in shown:
        if crate not in tree.crates:
            faults.append(("README.md", line_of[crate], f"crates.txt has no crate {crate}"))
    if not faults and layers != tree.layers:
        for here, there in zip(layers + [("", [])], tree.layers + [("", [])]):
            if here != there:
                faults.append(("README.md", line_of.get(here[0], 1), f"the map has {describe(here)}, crates.txt {describe(there)}"))
                break
    return faults


def describe(layer):
    return f"{layer[0]}: {' '.join(layer[1])}" if layer[0] else "no more headings"


def dependencies(tree):
    faults = []
    for crate, listed in tree.crates.items():
        named = {}
        for file in tree.files():
            if file.crate == crate:
                for other, line in crates_named(tree, file):
                    named.setdefault(other, (file.path, line))
        for other in listed:
            if other not in named and not reached(tree, crate, named, other):
                faults.append(("crates.txt", tree.crate_line[crate], f"{crate} lists {other}, which no file of it names"))
        for other, (path, line) in sorted(named.items()):
            if other not in listed and other != crate:
                faults.append((path, line, f"crates.txt does not list {other} for {crate}"))
    return faults


def reached(tree, crate, named, other):
    """Whether the crate's code may handle values of a type that the other declares, by functions and types of the crates that it names: such a
    type's crate must be listed too."""
    if not any(file.crate == crate and file.functions() for file in tree.code.values()):
        return False
    types = [b.name for f in tree.code.values() if f.crate == other for b in f.blocks if b.kind in ("struct", "enum")]
    held = re.compile(r"(?<!\w)(" + "|".join(types) + r")(?!\w)")
    for file in tree.code.values():
        if types and file.crate in named and file.crate != other:
            for block in file.blocks:
                end = block.body if block.kind == "fn" else block.end
                if held.search("\n".join(file.plain[block.line : end + 1])):
                    return True
    return False


def crates_named(tree, file):
    for i, line in enumerate(file.plain):
        for other in CRATE_NAMED.findall(line):
            yield other, i + 1
        if file.path.endswith(".rt"):
            for other in re.findall(r"(?<![\w:])(\w+)::", line):
                if other in tree.crates or other in KIT:
                    if not local_module(tree, file, other):
                        yield other, i + 1


def local_module(tree, file, name):
    """A module of the same crate that has a crate's name."""
    return name != file.crate and (file.crate, f"{name}.rt") in tree.code and name not in tree.crates[file.crate]


def edits(tree):
    faults = []
    for (crate, _), path in sorted(tree.edits.items()):
        changed, target, old = {}, None, None
        for number, line in enumerate(tree.text[path].splitlines(), 1):
            word, _, rest = line.partition(": ")
            if word == "file":
                target = f"crates/{crate}/{rest}"
                if target not in tree.text:
                    faults.append((path, number, f"there is no file {target}"))
                    break
                changed.setdefault(target, tree.text[target])
            elif word == "old":
                old = rest
                found = changed[target].count(old)
                if found != 1:
                    faults.append((path, number, f"the text stands {found} times in {target}, not once"))
                    break
            elif word == "new":
                changed[target] = changed[target].replace(old, rest, 1)
    return faults
