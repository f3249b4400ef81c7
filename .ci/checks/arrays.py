"""The choice of the largest weights "and all it calls then hold no array but the weights handed in and the names handed back" (document 02, §4).

Read from the code of the crate `largest`. It calls no function of another crate, so all that the choice reaches is there. Each array type in it is
that of a parameter `weight` or `names`, a reference: there is none in a local, a result, a struct, an enum or a constant, and no literal. The two are
named with an index, or alone as an argument of a call, so that neither is copied. docs/DECISIONS.md has a row for each function that the choice
reaches, with its arrays."""

import re

CRATE, CHOICE, PAGE = "largest", "choose", "docs/DECISIONS.md"
LENT = re.compile(r"(weight: &\[u64; 16\]|names: &(?:mut )?\[u8; 16\])(?=,|\))")
ROW = re.compile(r"^\| `largest/(\w+\.rt): (\w+)` \| (.*) \|$")


def check(tree):
    files = [file for file in tree.code.values() if file.crate == CRATE]
    functions = {block.name: (file, block) for file in files for block in file.functions()}
    if CHOICE not in functions:
        return [(f"crates/{CRATE}", 1, f"has no function {CHOICE}")]
    faults = [fault for file in files for fault in outside(file) + held(file, functions)]
    return faults + rows(tree, functions)


def outside(file):
    """What the file has of other crates: an import that is not ghost, or a path in its code."""
    ghost = {i.line for i in file.imports if file.plain[i.line].startswith("ghost ")}
    faults = [(file.path, i.line + 1, f"the choice uses {i.path}") for i in file.imports if i.line not in ghost]
    for block in file.functions():
        for i in range(block.body, block.end + 1):
            for path in re.findall(r"\w+::\w+", file.plain[i]):
                faults.append((file.path, i + 1, f"the choice uses {path}"))
    return faults


def held(file, functions):
    """Arrays that are not lent to a function, in signatures, types, constants and bodies."""
    faults = []
    for block in file.blocks:
        head = block.contract[0] if block.kind == "fn" else block.end + 1
        for i in range(block.line, head):
            if "[" in LENT.sub("", file.plain[i]):
                faults.append((file.path, i + 1, f"{block.name} has an array that is not lent to it"))
        if block.kind == "fn":
            body = "\n".join(file.plain[block.body : block.end + 1])
            for at, what in made(body, functions):
                faults.append((file.path, block.body + body[:at].count("\n") + 1, f"{block.name} {what}"))
    return faults


def made(body, functions):
    """Where a body has an array of its own, or one of the two as a whole."""
    for bracket in re.finditer(r"\[", body):
        if not re.search(r"(?<!\w)(weight|names)$", body[: bracket.start()]):
            yield bracket.start(), "has an array that is not lent to it"
    for named in re.finditer(r"(?<!\w)(weight|names)(?!\w)", body):
        if body[named.end() :][:1] != "[" and not argument(body, named, functions):
            yield named.start(), f"has {named.group()} as a whole, where it is not handed on"


def argument(body, named, functions):
    """Whether the name is by itself an argument of a call of one of the functions."""
    before, after = body[: named.start()].rstrip(), body[named.end() :].lstrip()
    if before[-1:] not in ("(", ",") or after[:1] not in (",", ")"):
        return False
    depth, at = 0, len(before) - 1
    while at >= 0 and not (body[at] == "(" and depth == 0):
        depth += {")": 1, "(": -1}.get(body[at], 0)
        at -= 1
    called = re.search(r"(?<!\w)(\w+)$", body[: max(at, 0)])
    return bool(called) and called.group(1) in functions


def rows(tree, functions):
    """The page's rows against what the choice reaches."""
    said, faults = {}, []
    for line, text in enumerate(tree.text.get(PAGE, "").splitlines(), 1):
        row = ROW.match(text)
        if row:
            said[row.group(2)] = (row.group(3), line)
    for name in reached(functions):
        arrays = arrays_of(*functions[name])
        if name not in said:
            faults.append((PAGE, 1, f"has no row for {name}, which the choice reaches"))
        elif said[name][0] != arrays:
            faults.append((PAGE, said[name][1], f"{name} has the arrays {arrays}"))
    return faults + [(PAGE, said[name][1], f"the choice does not reach {name}") for name in said if name not in reached(functions)]


def arrays_of(file, block):
    signature = "\n".join(file.plain[block.line : block.contract[0]])
    return ", ".join(f"`{lent}`" for lent in LENT.findall(signature)) or "none"


def reached(functions):
    found, ahead = [], [CHOICE]
    while ahead:
        name = ahead.pop(0)
        if name in functions and name not in found:
            file, block = functions[name]
            found.append(name)
            ahead += re.findall(r"(?<!\w)(\w+)\(", "\n".join(file.plain[block.body : block.end + 1]))
    return found
