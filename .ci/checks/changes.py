"""What changed between two commits, by name: kept statements, definitions, statements of laws, contracts, code, proofs and edits, with the lines
added and removed.

Kept statements are those of docs/STATEMENTS.md, with the headers of their sections. A declaration that stands unchanged in another file counts as moved.
Comments and imports are left out."""

import difflib

import statements


def between(old, new):
    parts = [
        ("Kept statements", statements.kept(old, new), statements.kept(new)),
        ("Definitions", spec_blocks(old, True), spec_blocks(new, True)),
        ("Statements of laws", spec_blocks(old, False, "statement"), spec_blocks(new, False, "statement")),
        ("Contracts", contracts(old), contracts(new)),
        ("Code", code(old), code(new)),
        ("Proofs of laws", spec_blocks(old, False, "proof"), spec_blocks(new, False, "proof")),
        ("Proofs of functions", proofs(old), proofs(new)),
        ("Must-fail edits", edits(old), edits(new)),
    ]
    out = []
    for title, before, after in parts:
        rows = compare(before, after)
        out += [f"## {title}", ""] + (rows or ["None changed."]) + [""]
    return "\n".join(out).rstrip()


def compare(before, after):
    gone = {name: text for name, text in before.items() if name not in after}
    come = {name: text for name, text in after.items() if name not in before}
    rows, moved = [], set()
    for name, text in sorted(come.items()):
        origin = next((o for o, t in sorted(gone.items()) if t == text and last(o) == last(name) and o not in moved), None)
        if origin:
            moved.add(origin)
            rows.append(f"- `{name}`: moved from {origin}")
        else:
            rows.append(f"- `{name}`: new, +{len(text)}")
    rows += [f"- {name}: removed, −{len(text)}" for name, text in sorted(gone.items()) if name not in moved]
    for name, text in sorted(after.items()):
        if name in before and before[name] != text:
            marks = [line[0] for line in difflib.ndiff(before[name], text)]
            rows.append(f"- `{name}`: changed, +{marks.count('+')} −{marks.count('-')}")
    return rows


def last(name):
    return name.split(": ")[-1]


def tidy(lines):
    return tuple(line.rstrip() for line in lines if line.strip())


def spec_blocks(tree, definitions, part=None):
    found = {}
    for file in tree.specs.values():
        for block in file.blocks:
            if (block.kind == "law") == definitions:
                continue
            first = block.body if part == "proof" else block.line
            end = block.body - 1 if part == "statement" else block.end
            found[f"{file.crate}/{file.shown}: {block.name}"] = tidy(file.plain[first : end + 1])
    return found


def functions(tree):
    for (crate, name), file in tree.code.items():
        for block in file.functions():
            yield f"{crate}/{name}: {block.name}", file, block


def contracts(tree):
    return {name: tidy(file.plain[b.contract[0] : b.contract[1]]) for name, file, b in functions(tree) if b.contract[0] < b.contract[1]}


def code(tree):
    found = {name: tidy(file.plain[b.line : b.contract[0]] + file.plain[b.contract[1] : b.end + 1]) for name, file, b in functions(tree)}
    for (crate, name), file in tree.code.items():
        for b in file.blocks:
            if b.kind != "fn":
                found[f"{crate}/{name}: {b.name}"] = tidy(file.plain[b.line : b.end + 1])
    return found


def proofs(tree):
    return {f"crates/{crate}/proofs/{module.replace('.', '/')}.antt": tidy(file.plain) for (crate, module), file in tree.proofs.items()}


def edits(tree):
    return {f"{crate}/{label}": tidy(tree.text[path].splitlines()) for (crate, label), path in tree.edits.items()}
