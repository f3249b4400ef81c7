"""Names that nothing uses: declarations of specs, proofs and code that no other place names and no document cites; imports that their file
does not need; names that a file's head lists and the file does not have. A use in the declaration's own lines (a recursive clause) does not count, and an import counts where it is used."""

import re

from source import SPEC_MODULE, SIGNATURE, occurs, word


def check(tree, citations, uses):
    faults = []
    for file in tree.antt():
        faults += (heads(file) if file.stated else []) + list(imports(file))
        faults += [f for f in declarations(file, uses, citations)]
        faults += helpers(file)
    for file in tree.code.values():
        faults += imports(file)
        faults += items(tree, file, uses, citations)
    return faults


class Uses:
    """Who imports what: of each module of specs the names that other files take from it and use."""

    def __init__(self, tree):
        self.tree = tree
        self.taken, self.passed, self.whole = {}, {}, []
        self.text = {file.path: file.code() for file in tree.files()}
        self.parts = "\n".join(self.text.values())
        for file in tree.files():
            for item in file.imports:
                found = SPEC_MODULE.match(item.path)
                if not found or found.group(2).startswith("declared"):
                    continue
                module = (found.group(1), found.group(2))
                if item.name is None:
                    self.whole.append((module, item.alias, file))
                elif item.passed_on:
                    self.passed.setdefault((module, item.name), []).append((file, item))
                elif occurs(item.alias, self.text[file.path]):
                    self.taken.setdefault((module, item.name), []).append(file)

    def outside(self, module, name, citations):
        if (module, name) in self.taken:
            return True
        for file, item in self.passed.get((module, name), []):
            if (file.path, name) in citations.names or self.outside((file.crate, file.module), item.alias, citations):
                return True
        return any(m == module and f"{alias}.{name}" in self.text[f.path] for m, alias, f in self.whole)


def declarations(file, uses, citations):
    in_specs = file.stated
    module = (file.crate, file.module)
    for block in file.blocks:
        # Rattle reads the answers and invariants of a function's proof by their names
        if not in_specs and block.public:
            continue
        if (file.path, block.name) in citations.names:
            continue
        if in_specs and uses.outside(module, block.name, citations):
            continue
        if block.parts and any((file.path, part) in citations.names or uses.outside(module, part, citations) for part, _ in block.parts):
            continue
        if not occurs(block.name, file.code([block])):
            yield file.path, block.line + 1, f"nothing uses {block.name}, and no document cites it"
    for block in file.blocks:
        for part, line in block.parts:
            if (file.path, part) not in citations.names and not part_used(file, block, part, line, uses):
                yield file.path, line + 1, f"nothing uses {part} of {block.name}"
    for item in file.imports:
        if item.passed_on and (file.path, item.alias) not in citations.names and not uses.outside(module, item.alias, citations):
            yield file.path, item.line + 1, f"{item.alias} is passed on, and nothing takes it from here"


def part_used(file, block, part, line, uses):
    """A field is read as `.field` or given in a record; a constructor is named."""
    rest = "\n".join(l for i, l in enumerate(file.plain) if i != line and i not in file.import_lines)
    others = (text for path, text in uses.text.items() if path != file.path)
    if block.kind == "data":
        return word(part).search(rest) is not None or any(word(part).search(text) for text in others)
    read = re.compile(rf"\.{re.escape(part)}(?![^\s(){{}}\[\],;.\"⌜⌝])")
    return word(part).search(rest) is not None or any(read.search(text) for text in others)


def heads(file):
    """The list at the head of a file: `--     name, name    meaning`, where `-more` goes on from the name before it."""
    faults, known = [], file.names() | {item.alias for item in file.imports}
    for i, line in enumerate(file.lines):
        if not line.startswith("--"):
            break
        listed = re.match(r"^--     (\S.*?)(?:\s{2,}|$)", line)
        before = ""
        for item in listed.group(1).split(",") if listed else []:
            name = item.split()[0] if item.split() else ""
            ends = [name] if not name.startswith("-") else [before[:k] + name for k, c in enumerate(before) if c == "-"]
            if name and not name.endswith("…") and not any(end in known for end in ends):
                faults.append((file.path, i + 1, f"the head lists {name}, which the file does not declare"))
            before = name if not name.startswith("-") else before
    return faults


def imports(file):
    text = file.code()
    for item in file.imports:
        if item.passed_on or item.name is None and ".proofs." in item.path:
            continue
        if not occurs(item.alias, text):
            yield file.path, item.line + 1, f"the import {item.alias} is not used"


def helpers(file):
    """Helpers below a `where`: named in the block that they stand in, beside their own clauses."""
    for block in file.blocks:
        if block.kind in ("record", "data"):
            continue
        for i in range(block.line + 1, block.end + 1):
            made = SIGNATURE.match(file.plain[i])
            if not made or len(made.group(1)) <= block.indent or not below_where(file, block, i, len(made.group(1))):
                continue
            name, indent = made.group(3).split()[0], len(made.group(1))
            after = i + 1
            while after <= block.end and own_line(file.plain[after], name, indent):
                after += 1
            rest = file.plain[block.line : i] + file.plain[after : block.end + 1]
            if not occurs(name, "\n".join(rest)):
                yield file.path, i + 1, f"nothing uses the helper {name}"


def own_line(line, name, indent):
    deep = len(line) - len(line.lstrip())
    return not line.strip() or deep > indent or deep == indent and line.split()[0] == name


def below_where(file, block, line, indent):
    for i in range(line - 1, block.line - 1, -1):
        text = file.plain[i]
        deep = len(text) - len(text.lstrip())
        if text.strip() and deep < indent:
            return text.strip() == "where" or text.rstrip().endswith(" where")
    return False


def items(tree, file, uses, citations):
    """Functions, types and constants of the code. A call offered to others is one that a document cites."""
    for block in file.blocks:
        name = block.name
        if getattr(block, "exported", False) or name == "main" or (file.path, name) in citations.names:
            continue
        if occurs_in_code(name, file.code([block])):
            continue
        if any(other is not file and names_it(tree, file, other, name, uses) for other in tree.files()):
            continue
        yield file.path, block.line + 1, f"nothing uses {block.kind} {name}, and no document cites it"


def occurs_in_code(name, text):
    return re.search(rf"(?<!\w){re.escape(name)}(?!\w)", text) is not None


def names_it(tree, file, other, name, uses):
    """Whether another file of the crate, or of one that depends on it, names the item: by an import, a path, a method or a projection."""
    if other.crate != file.crate and file.crate not in tree.crates.get(other.crate, []):
        return False
    if any(item.name == name and occurs_in_code(item.alias, uses.text[other.path]) for item in other.imports):
        return True
    return re.search(rf"(::|\.){re.escape(name)}(?!\w)", uses.text[other.path]) is not None
