"""The repository's sources as the checks see them: crates and what they depend on, the names that each file declares, and its imports.

    Tree        the crates, their files and their must-fail edits, read from a folder or from a commit
    File        the lines of a file with and without comments
    Spec        a file of antt: declared names, fields, constructors, imports
    Code        a file of Rattle: functions with their contracts and bodies, types, constants, imports
"""

import os
import re
import subprocess

NAME = r"[^\s(){}\[\],;.λ\"⌜⌝:=]+"
MODIFIERS = r"(?:(?:unfoldable|abbrev|pub|private)\s+)*"
KEYWORDS = {"use", "module", "mod", "record", "data", "unfolding", "let", "in", "where", "open"}
SIGNATURE = re.compile(rf"^(\s*)({MODIFIERS})((?:{NAME}\s+)*{NAME})\s*:(?:\s|$)")
TYPE = re.compile(rf"^(\s*)({MODIFIERS})(record|data)\s+({NAME})(?:\s|$)")
# a crate and a module of it: X of specs/, or proofs.X of proofs/
SPEC_MODULE = re.compile(r"^Rattle\.(?!std\.|core\.)(\w+)\.(?:specs\.|(?=proofs\.))(.+)$")
CRATE_NAMED = re.compile(r"(?<![\w.])Rattle\.(?!std\.|core\.)(\w+)\.")


class Tree:
    """All files of the repository, as a map from path to text: of a folder, or of a commit of it."""

    def __init__(self, root, commit=None):
        self.root = root
        self.text = _from_commit(root, commit) if commit else _from_folder(root)
        self.paths = set(self.text)
        self.text = {path: text for path, text in self.text.items() if text is not None}
        self.crates, self.layers, self.crate_line = _crates(self.text.get("crates.txt", ""))
        self.specs, self.proofs, self.code, self.edits = {}, {}, {}, {}
        for path in sorted(self.text):
            self._sort(path)

    def _sort(self, path):
        parts = path.split("/")
        if parts[0] != "crates" or len(parts) < 4:
            return
        crate, kind = parts[1], parts[2]
        if path.endswith(".antt"):
            module = ("" if kind == "specs" else "proofs.") + ".".join(parts[3:])[: -len(".antt")]
            # laws stand in specs/, or right in proofs/; a function's proof has a folder of its own there
            into = self.specs if kind == "specs" or len(parts) == 4 else self.proofs
            into[crate, module] = Spec(path, self.text[path], crate, module)
        elif path.endswith(".rt"):
            self.code[crate, "/".join(parts[3:])] = Code(path, self.text[path], crate)
        elif kind == "must-fail" and path.endswith(".edit"):
            self.edits[crate, parts[3][: -len(".edit")]] = path

    def stated(self, crate, file):
        """The files that `crate/File` means: specs/File.antt and proofs/File.antt."""
        return [self.specs[key] for key in ((crate, file), (crate, f"proofs.{file}")) if key in self.specs]

    def antt(self):
        return list(self.specs.values()) + list(self.proofs.values())

    def files(self):
        return self.antt() + list(self.code.values())


def _from_folder(root):
    text = {}
    for folder, folders, files in os.walk(root):
        folders[:] = [f for f in folders if f not in (".git", "target", "out", "__pycache__")]
        for file in files:
            path = os.path.join(folder, file)
            with open(path, "rb") as opened:
                text[os.path.relpath(path, root)] = _decode(opened.read())
    return text


def _from_commit(root, commit):
    def git(*words):
        return subprocess.run(("git", "-C", root) + words, check=True, stdout=subprocess.PIPE).stdout

    names = [n for n in git("ls-tree", "-r", "--name-only", "-z", commit).decode().split("\0") if n]
    asked = "".join(f"{commit}:{n}\n" for n in names).encode()
    out = subprocess.run(("git", "-C", root, "cat-file", "--batch"), input=asked, check=True, stdout=subprocess.PIPE).stdout
    text, at = {}, 0
    for name in names:
        end = out.index(b"\n", at)
        size = int(out[at:end].split()[2])
        text[name] = _decode(out[end + 1 : end + 1 + size])
        at = end + size + 2
    return text


def _decode(data):
    try:
        return None if b"\0" in data else data.decode()
    except UnicodeDecodeError:
        return None


def _crates(text):
    """Each crate with what it depends on; the layers, a heading with its crates; each crate's line."""
    crates, layers, lines, heading = {}, [], {}, None
    for number, line in enumerate(text.splitlines(), 1):
        comment = re.match(r"^# (\S.*)$", line)
        if comment:
            heading = comment.group(1)
        entry = re.match(r"^(\w+)(?: staticlib)?:\s*([^#]*)", line)
        if entry:
            if not layers or layers[-1][0] != heading:
                layers.append((heading, []))
            layers[-1][1].append(entry.group(1))
            crates[entry.group(1)] = entry.group(2).split()
            lines[entry.group(1)] = number
    return crates, layers, lines


class Import:
    def __init__(self, line, path, name, alias, passed_on):
        self.line, self.path, self.name, self.alias, self.passed_on = line, path, name, alias, passed_on


class Block:
    """A declaration: its lines, its fields or constructors, and for antt the headers of the sections that it stands in and where its statement
    ends."""

    def __init__(self, name, kind, line, indent, public, sections=()):
        self.name, self.kind, self.line, self.indent, self.public = name, kind, line, indent, public
        self.sections = sections
        self.end = line
        self.parts = []
        self.contract = (line, line)
        self.body = line


class File:
    def __init__(self, path, text, crate, comment):
        self.path, self.crate = path, crate
        self.lines = text.splitlines()
        self.plain = [re.sub(comment, "", line) for line in self.lines]
        self.imports, self.blocks = [], []
        self.import_lines = set()

    def code(self, without=()):
        """The text without comments, imports and the lines of these blocks."""
        left_out = set(self.import_lines)
        for block in without:
            left_out.update(range(block.line, block.end + 1))
        return "\n".join(line for i, line in enumerate(self.plain) if i not in left_out)

    def block(self, name):
        return next((b for b in self.blocks if b.name == name), None)

    def block_text(self, block):
        return self.lines[block.line : block.end + 1]

    def add_antt_import(self, line, path, names, passed_on):
        for item in names.split(","):
            item = item.strip()
            if item:
                item = item.removeprefix("syntax ")
                name, _, alias = item.partition(" as ")
                self.imports.append(Import(line, path, name, alias or name, passed_on))


ANTT_USE = re.compile(rf"^({MODIFIERS})use\s+(\S+?)(?:\.\{{(.*)\}}|\s+as\s+(\S+))?$")


class Spec(File):
    def __init__(self, path, text, crate, module):
        super().__init__(path, text, crate, r"(?<!\S)--.*$")
        self.module = module
        # a file of definitions and laws, and not the proof of one function
        self.stated = path.count("/") == 3
        self.shown = module.removeprefix("proofs.")
        self._read_imports()
        self._read_blocks()

    def _read_imports(self):
        i = 0
        while i < len(self.plain):
            if re.match(rf"^{MODIFIERS}use\s", self.plain[i]):
                first, whole = i, self.plain[i]
                while "{" in whole and "}" not in whole:
                    i += 1
                    whole += " " + self.plain[i].strip()
                self.import_lines.update(range(first, i + 1))
                found = ANTT_USE.match(whole.strip())
                if found and found.group(3) is not None:
                    self.add_antt_import(first, found.group(2), found.group(3), "pub " in found.group(1))
                elif found and found.group(4):
                    self.imports.append(Import(first, found.group(2), None, found.group(4), False))
            elif re.match(r"^(pub\s+)?mod\s", self.plain[i]):
                self.import_lines.add(i)
            i += 1

    def _read_blocks(self):
        """Declarations stand at the left margin, or at the margin of the sections (`module _ … where`) that they are in."""
        margins, sections = [(-1, 0)], []
        header = None
        for i, line in enumerate(self.plain):
            if i in self.import_lines or not line.strip():
                continue
            indent = len(line) - len(line.lstrip())
            if header is None and margins[-1][1] is None:
                margins[-1] = (margins[-1][0], indent)
            while header is None and indent <= margins[-1][0]:
                margins.pop()
                sections.pop()
            if header is None and re.match(r"^\s*module\s", line):
                header = (indent, i)
            if header is not None:
                if re.search(r"(^|\s)where$", line.rstrip()):
                    margins.append((header[0], None))
                    sections.append((header[1], i))
                    header = None
                continue
            if indent == margins[-1][1]:
                self._declare(i, line, tuple(sections))
        for block in self.blocks:
            self._extend(block)

    def _declare(self, i, line, sections):
        made = TYPE.match(line)
        if made:
            self.blocks.append(Block(made.group(4), made.group(3), i, len(made.group(1)), "pub" in made.group(2), sections))
            return
        made = SIGNATURE.match(line)
        if made and made.group(3).split()[0] not in KEYWORDS:
            for name in made.group(3).split():
                kind = "definition" if re.search("unfoldable|abbrev", made.group(2)) else "law"
                self.blocks.append(Block(name, kind, i, len(made.group(1)), "pub" in made.group(2), sections))

    def _extend(self, block):
        """The block goes on while lines are deeper, or are clauses of the same name."""
        marks = [part for part in block.name.split("◌") if part] if "◌" in block.name else []
        last, block.body = block.line, None
        for i in range(block.line + 1, len(self.plain)):
            line = self.plain[i]
            if not line.strip():
                continue
            indent = len(line) - len(line.lstrip())
            words = line.split()
            clause = words[0] == block.name or words[0] == "unfolding" or (marks and all(m in words for m in marks) and " = " in line)
            if indent < block.indent or (indent == block.indent and (block.kind in ("record", "data") or not clause)):
                break
            if indent == block.indent and block.body is None:
                block.body = i
            last = i
        block.end = last
        if block.body is None:
            block.body = last + 1
        if block.kind in ("record", "data"):
            for i in range(block.line + 1, block.end + 1):
                part = SIGNATURE.match(self.plain[i])
                if part and len(part.group(1)) == block.indent + 2:
                    block.parts += [(name, i) for name in part.group(3).split()]

    def names(self):
        passed_on = {item.alias for item in self.imports if item.passed_on}
        return {b.name for b in self.blocks} | {p for b in self.blocks for p, _ in b.parts} | passed_on


class Code(File):
    def __init__(self, path, text, crate):
        super().__init__(path, text, crate, r"(?<![:\"])//.*$")
        self._read_imports()
        self._read_blocks()

    def _read_imports(self):
        i = 0
        while i < len(self.plain):
            if re.match(r"^(pub |ghost )?use\s", self.plain[i]):
                first, whole = i, self.plain[i]
                while ";" not in whole:
                    i += 1
                    whole += " " + self.plain[i].strip()
                self.import_lines.update(range(first, i + 1))
                self._import(first, whole.strip().rstrip(";"))
            elif re.match(r"^(pub\s+)?mod\s+\w+;", self.plain[i]):
                self.import_lines.add(i)
            i += 1

    def _import(self, line, text):
        ghost = re.match(r"^ghost use\s+(\S+?)\.\{(.*)\}$", text)
        if ghost:
            self.add_antt_import(line, ghost.group(1), ghost.group(2), False)
            return
        plain = re.match(r"^(pub )?use\s+([\w:]+?)(?:::\{(.*)\})?(?:\s+as\s+(\w+))?$", text)
        if plain:
            names = plain.group(3).split(",") if plain.group(3) else [plain.group(2).split("::")[-1]]
            for name in (n.strip() for n in names):
                self.imports.append(Import(line, plain.group(2), name, plain.group(4) or name, bool(plain.group(1))))

    def _read_blocks(self):
        for i, line in enumerate(self.plain):
            made = re.match(r'^(\s*)(pub )?(extern "C" )?(fn|struct|enum|const)\s+(\w+)', line)
            if made:
                block = Block(made.group(5), made.group(4), i, len(made.group(1)), bool(made.group(2)))
                block.exported = bool(made.group(3))
                self.blocks.append(block)
                self._extend(block)

    def _extend(self, block):
        closing = " " * block.indent + "}"
        opened = block.line
        if block.kind == "const":
            while not self.plain[opened].rstrip().endswith(";"):
                opened += 1
            block.end = opened
            return
        while not (self.plain[opened].rstrip() == " " * block.indent + "{" or self._opens(opened, block)):
            opened += 1
        block.body = opened
        block.end = opened
        while block.end + 1 < len(self.plain) and self.plain[block.end].rstrip() != closing:
            if block.end == opened and self.plain[opened].rstrip().endswith(("}", ";")):
                break
            block.end += 1
        contract = next((i for i in range(block.line, opened) if re.match(r"^\s*(requires|ensures|decreases)\b", self.plain[i])), opened)
        block.contract = (contract, opened)

    def _opens(self, i, block):
        """A line of the signature itself that ends with the opening brace."""
        line = self.plain[i].rstrip()
        if re.match(r"^\s*(requires|ensures|decreases)\b", line):
            return False
        return line.endswith("{") and len(line) - len(line.lstrip()) == block.indent or (i == block.line and line.endswith((";", "}")))

    def functions(self):
        return [b for b in self.blocks if b.kind == "fn"]

    def names(self):
        return {b.name for b in self.blocks}


def occurs(name, text):
    """Whether antt's or Rattle's name stands in the text. A name with places, as `◌+◌`, stands there if all its words do."""
    if re.fullmatch(r"\W+", name) and "◌" not in name:
        return name in text
    if word(name).search(text):
        return True
    parts = [part for part in name.split("◌") if part]
    between = name.startswith("◌") and name.endswith("◌")
    return "◌" in name and bool(parts) and all(word(part).search(text) if between else part in text for part in parts)


def word(name):
    return re.compile(rf"(?<![^\s(){{}}\[\],;.λ\"⌜⌝&*!:<>]){re.escape(name)}(?![^\s(){{}}\[\],;.\"⌜⌝&:<>?])")
