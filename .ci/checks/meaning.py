"""What a declaration of antt says: its statement, word for word, and the declarations of the repository that it names.

    statement    the headers of the sections that it stands in and its signature, up to the first clause; of a record, and of a definition, the
                 whole declaration; of a function of Rattle its signature and its contract. Comments are left out, indentation stays.
    named        the declarations of antt that a statement names, each with its file: its own file's, and those that the file imports
    renamed      the names in a statement that its file imports under another name than their own

A law's name has a hyphen, or its type says something. A definition is marked `abbrev` or `unfoldable`, or its result is a number, a truth value, a
type, a list or another thing that a single name says."""

import re

from source import NAME, SPEC_MODULE, occurs

THING = re.compile(r"ℕ|Bool|Type \d|(?:List|Option) .*|[A-Z]\w*")
BOUND = (re.compile(rf"[({{]\s*((?:{NAME}\s+)*{NAME})\s*:(?=\s)"), re.compile(rf"λ\s+((?:{NAME}\s+)*{NAME})\."))
PROJECTION = re.compile(r"(?<=[\w'₀-₉)])\.[^\s(){}\[\],;]+")
BETWEEN = re.compile(r"[\s(){}\[\],;.λ\"⌜⌝]+")


def is_law(file, block):
    if block.kind != "law" or "-" in block.name:
        return block.kind == "law"
    return not THING.fullmatch(result(" ".join(file.plain[block.line : block.body])))


def result(signature):
    """What stands behind the last arrow that is in no brackets."""
    depth, last, text = 0, 0, signature.split(":", 1)[1]
    for at, sign in enumerate(text):
        depth += {"(": 1, "{": 1, ")": -1, "}": -1}.get(sign, 0)
        if sign == "→" and depth == 0:
            last = at + 1
    return text[last:].strip()


def has_parameters(file, block):
    """Whether a record or a data type is of something: by its own parameters or by those of its sections."""
    return bool(block.sections) or re.search(r"(record|data)\s+\S+\s+[({]", file.plain[block.line]) is not None


def statement(file, block):
    """Its lines, each with its number in the file."""
    parts = [range(first, last + 1) for first, last in block.sections]
    parts.append(range(block.line, block.body if block.kind == "fn" or is_law(file, block) else block.end + 1))
    return [(i + 1, file.plain[i].rstrip()) for part in parts for i in part if file.plain[i].strip()]


class Meaning:
    def __init__(self, tree):
        self.tree = tree

    def named(self, file, block):
        words, taken = self._words(file, block)
        own = [] if block.kind == "fn" else file.blocks
        found = [(file, other) for other in own if other.name in words and other is not block]
        for item in taken:
            module = SPEC_MODULE.match(item.path)
            declared = self.declared(module.groups(), item.name) if module else None
            if declared:
                found.append(declared)
        return found

    def renamed(self, file, block):
        return [item for item in self._words(file, block)[1] if item.alias != item.name]

    def _words(self, file, block):
        """The statement's words, and the imports that it uses."""
        text = PROJECTION.sub(" ", "\n".join(line for _, line in statement(file, block)))
        words = set(BETWEEN.split(text)) - self._bound(file, block, text)
        named = [i for i in file.imports if i.name and (i.alias in words or "◌" in i.alias and occurs(i.alias, text))]
        return words, named

    def _bound(self, file, block, text):
        """Names that the declaration binds itself: parameters, what a clause stands for, fields."""
        bound = {block.name} | {name for name, _ in block.parts}
        for form in BOUND:
            for names in form.findall(text):
                bound |= set(names.split())
        if block.kind not in ("record", "data") and not is_law(file, block):
            for line in file.plain[block.body : block.end + 1]:
                if line.split()[:1] == [block.name] and " = " in f"{line} ":
                    bound |= set(BETWEEN.split(f"{line} ".split(" = ")[0]))
        return bound

    def declared(self, module, name):
        """Where a name comes from: the file that declares it or has it as a field or constructor, past those that pass it on."""
        file = self.tree.specs.get(module)
        if file is None:
            return None
        for block in file.blocks:
            if block.name == name or any(part == name for part, _ in block.parts):
                return file, block
        for item in file.imports:
            onward = SPEC_MODULE.match(item.path)
            if item.passed_on and item.alias == name and onward:
                return self.declared(onward.groups(), item.name)
        return None
