"""docs/STATEMENTS.md has the statements that no proof holds in place, word for word.

An entry is a line that is just `crate/File: name`, or `crate/file.rt: name` of a function, and below it, indented, the statement of that name
(meaning.py). It is the source's. The page has
    the contract of every call of README.md's table;
    every law that docs/CLAIMS.md cites and that nothing uses: no other declaration of its file names it, and no other file;
    every record or type with parameters that a statement of the page names, since it says something of what it is given, and so on through these;
    every definition that a statement of the page names and whose file is not on README.md's list of definitions to believe (believed.py).
Of worked examples (the crates `worked` and `test_answers`, the files Worked and Met) only the laws are asked for. Their definitions are lists of cases
and the tests over them, and edits try those. A field of a record with parameters is read by a proof, or the page has its record: one that is only ever
given can be weakened unseen. What a statement names it names as its file of origin does, so that the page can be read. More may stand on the page;
nothing stands there twice."""

import re

import believed
from meaning import PROJECTION, Meaning, has_parameters, is_law, statement
from source import occurs

PAGE, CLAIMS = "docs/STATEMENTS.md", "docs/CLAIMS.md"
ENTRY = re.compile(r"^`(\w+)/([A-Z]\w*|\w+\.rt): (\S+)`$")
WORKED = re.compile(r"^(worked|test_answers)/|/(Worked|Met)$")
INDENT = "    "
READ = re.compile(r"\.([^\s(){}\[\],;.\"⌜⌝]+)")


class Uncited:
    """Citations that have no name: what a document cites is not a use."""

    names = frozenset()


class Entry:
    def __init__(self, crate, module, name, line):
        self.crate, self.module, self.name, self.line = crate, module, name, line
        self.shown, self.first = [], None

    def key(self):
        return f"{self.crate}/{self.module}: {self.name}"

    def source(self, tree):
        """The file and the declaration that the entry is of, or nothing."""
        code = tree.code.get((self.crate, self.module))
        files = [code] if code else tree.stated(self.crate, self.module)
        return next(((file, file.block(self.name)) for file in files if file.block(self.name)), None)


def entries(tree):
    found, open_entry = [], None
    for number, line in enumerate(tree.text.get(PAGE, "").splitlines(), 1):
        made = ENTRY.match(line)
        if made:
            open_entry = Entry(*made.groups(), number)
            found.append(open_entry)
        elif line.startswith(INDENT) and open_entry:
            open_entry.first = open_entry.first or number
            open_entry.shown.append(line[len(INDENT) :].rstrip())
        elif line.strip():
            open_entry = None
    return found


def check(tree, citations, uses):
    page = entries(tree)
    if not page:
        return [(PAGE, 1, "is missing, or has no entry")]
    faults, seen = [], {}
    for entry in page:
        if entry.key() in seen:
            faults.append((PAGE, entry.line, f"{entry.key()} stands here a second time"))
        seen[entry.key()] = entry
        faults += differences(tree, entry)
    return faults + uncalled(tree, seen) + unkept(tree, citations, uses, seen) + unexplained(tree, seen) + unread(tree, uses, seen)


def differences(tree, entry):
    """The first line of the entry that is not the source's."""
    if entry.source(tree) is None:
        return []
    if not entry.shown:
        return [(PAGE, entry.line, f"{entry.key()} has no statement below it")]
    file, block = entry.source(tree)
    there = statement(file, block)
    for at in range(max(len(there), len(entry.shown))):
        number, line = there[at] if at < len(there) else (block.end + 1, "no more")
        if at == len(entry.shown) or at == len(there) or entry.shown[at] != line:
            return [(PAGE, entry.first + min(at, len(entry.shown) - 1), f"{entry.key()} differs, {file.path}:{number} has {line.strip()}")]
    return []


def uncalled(tree, seen):
    """Offered calls whose contract the page does not have."""
    kept = {(entry.crate, entry.name) for entry in seen.values() if entry.module.endswith(".rt")}
    calls = ((line, crate, name) for line, crate, name in believed.offered(tree) if (crate, name) not in kept)
    return [(believed.PAGE, line, f"{PAGE} does not have the contract of {name}") for line, crate, name in calls]


def unkept(tree, citations, uses, seen):
    """Laws that the claims cite, that nothing uses, and that the page does not have."""
    faults = []
    for file in tree.specs.values():
        for block in file.blocks:
            key, line = name_of(file, block), citations.places.get(CLAIMS, {}).get((file.path, block.name))
            if line and is_law(file, block) and key not in seen and not used(file, block, uses):
                faults.append((CLAIMS, line, f"nothing uses {key}, and {PAGE} does not have its statement"))
    return faults


def used(file, block, uses):
    rest = PROJECTION.sub(" ", file.code([block]))
    return uses.outside((file.crate, file.module), block.name, Uncited) or occurs(block.name, rest)


def unexplained(tree, seen):
    """Records, types and definitions that a statement of the page names, and that neither the page nor README.md's list has."""
    faults, meaning, listed = [], Meaning(tree), believed.listed(tree)
    for entry in (e for e in seen.values() if e.source(tree)):
        for file, block in meaning.named(*entry.source(tree)):
            if name_of(file, block) not in seen and to_keep(file, block, listed):
                faults.append((PAGE, entry.line, f"{entry.key()} names {name_of(file, block)}, whose statement is not on the page"))
        for item in meaning.renamed(*entry.source(tree)):
            faults.append((PAGE, entry.line, f"{entry.key()} names {item.alias}, which is {item.name} under another name"))
    return faults


def unread(tree, uses, seen):
    """Fields that say something and that no proof reads, of records that the page does not have."""
    faults, read = [], set(READ.findall(uses.parts))
    for file in tree.specs.values():
        for block in file.blocks:
            if block.kind == "record" and has_parameters(file, block) and name_of(file, block) not in seen:
                for part, line in block.parts:
                    if part not in read:
                        faults.append((file.path, line + 1, f"nothing reads {part} of {block.name}, and {PAGE} does not have its statement"))
    return faults


def to_keep(file, block, listed):
    if WORKED.search(f"{file.crate}/{file.shown}") or is_law(file, block):
        return False
    if block.kind in ("record", "data"):
        return has_parameters(file, block)
    return (file.crate, file.module) not in listed


def name_of(file, block):
    return f"{file.crate}/{file.shown}: {block.name}"


def kept(tree, later=None):
    """The statements that the page keeps, as the sources have them; before there was a page, those of a later one."""
    page = entries(tree) or entries(later or tree)
    found = {entry.key(): entry.source(tree) for entry in page}
    return {key: tuple(line for _, line in statement(*source)) for key, source in found.items() if source}


def rewritten(tree):
    """The page with the sources' statements below its entries."""
    known, lines = {entry.line: entry for entry in entries(tree)}, []
    within = False
    for number, line in enumerate(tree.text[PAGE].splitlines(), 1):
        if within and (line.startswith(INDENT) or not line.strip()):
            continue
        if within:
            lines.append("")
        within = number in known and known[number].source(tree) is not None
        lines.append(line)
        if within:
            lines += [""] + [INDENT + text for _, text in statement(*known[number].source(tree))]
    return "\n".join(lines) + "\n"
