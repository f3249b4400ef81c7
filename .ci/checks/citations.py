"""What the documents cite exists, and what they must cite is cited.

A code span of a document is one of:
    `crate/File`, `crate/File: name`         crates/crate/specs/File.antt or proofs/File.antt, and a name that it declares
    `crate/file.rt`, `crate/file.rt: name`   crates/crate/src/file.rt, and a function, type or constant of it
    `crate/label`                            crates/crate/must-fail/label.edit
    `crates/crate/proofs/F/Answers.antt: name`  a lemma of the proof of one function
    `folder/path`                            a path from the repository's root
Spans in brackets behind the first two are fields or words of that declaration: `history/Log: Claim` (`takes`). In a table, the spans of a row that
begins with `crate/File`, and of a column whose heading has it, are names of that file. docs/STATEMENTS.md copies the sources, so that it cites a name
does not keep the name from being unused.
"""

import fnmatch
import os
import re

SPAN = re.compile(r"`([^`]+)`")
SPEC = re.compile(r"^([a-z_]\w*)/([A-Z]\w*)(?:: (\S+))?$")
CODE = re.compile(r"^([a-z_]\w*)/(\w+\.rt)(?:: (\S+))?$")
ANSWERS = re.compile(r"^(crates/[\w./+]+\.antt): (\S+)$")
PAIR = re.compile(r"^([a-z_]\w*)/([a-z_]\w*)$")
PATH = re.compile(r"^[\w.*-]+(?:/[\w.*-]+)+/?$")
LINK = re.compile(r"\]\(([^)#:]+)(?:#[^)]*)?\)")
NAME = re.compile(r"^[^\s(){}/.,;]+$")
KEPT = "docs/STATEMENTS.md"


def documents(tree):
    named = ("README.md", "CONTRIBUTING.md")
    return [p for p in sorted(tree.paths) if p in named or re.match(r"^(docs/.*|rust/README|shows/README)(\.md)?$", p) and p.endswith(".md")]


class Citations:
    """All citations of all documents: faults, what is cited, and where each document cites it first."""

    def __init__(self, tree):
        self.tree, self.faults = tree, []
        self.names, self.edits, self.places = set(), {}, {}
        for path in documents(tree):
            self._read(path)

    def _fault(self, path, line, what):
        self.faults.append((path, line, what))

    def _cite(self, path, line, source, name):
        if path != KEPT:
            self.names.add((source, name))
        self.places.setdefault(path, {}).setdefault((source, name), line)

    def _read(self, path):
        fenced, heading = False, []
        for number, line in enumerate(self.tree.text[path].splitlines(), 1):
            if line.startswith("```"):
                fenced = not fenced
            if fenced or line.startswith("    "):
                continue
            if line.count("`") % 2:
                self._fault(path, number, "a code span goes over the line's end, where nothing checks it")
            if not line.startswith("|"):
                heading = []
                self._spans(path, number, line, [])
            else:
                heading = self._row(path, number, line, heading)
            for target in LINK.findall(line):
                if not os.path.normpath(os.path.join(os.path.dirname(path), target)) in self._places():
                    self._fault(path, number, f"the link's target {target} is not there")

    def _row(self, path, number, line, heading):
        cells = line.strip().strip("|").split("|")
        if not heading:
            heading = [self._files_of(cell) for cell in cells]
        of_row = self._files_of(cells[0]) if SPAN.fullmatch(cells[0].strip()) else []
        for i, cell in enumerate(cells):
            of_column = heading[i] if i < len(heading) else []
            files = (of_row if i else []) + of_column
            self._spans(path, number, cell, files)
        return heading

    def _files_of(self, cell):
        for span in SPAN.findall(cell):
            found = SPEC.match(span)
            if found and not found.group(3):
                return self.tree.stated(found.group(1), found.group(2))
        return []

    def _spans(self, path, number, text, files):
        block, bracket = None, False
        end = 0
        for match in SPAN.finditer(text):
            between = text[end : match.start()]
            end = match.end()
            bracket = block and (between == " (" or bracket and ")" not in between)
            if bracket:
                self._word(path, number, match.group(1), block)
                continue
            block, file = self._span(path, number, match.group(1))
            if file and files:
                # from here on the cell speaks of another file too
                files = []
            elif not file and files and NAME.match(match.group(1)):
                self._bare(path, number, match.group(1), files)

    def _bare(self, path, number, name, files):
        holding = [f for f in files if name in f.names()]
        if not holding:
            self._fault(path, number, f"{files[0].crate}/{files[0].shown} has no name {name}")
        for file in holding:
            self._cite(path, number, file.path, name)

    def _word(self, path, number, name, block):
        file, declared = block
        text = "\n".join(file.plain[declared.line : declared.end + 1])
        if NAME.match(name) and name not in text:
            self._fault(path, number, f"{declared.name} in {file.path} has no {name}")
        self._cite(path, number, file.path, name)

    def _span(self, path, number, span):
        """The block and the file that a span cites, or nothing."""
        found = SPEC.match(span)
        if found:
            return self._declared(path, number, found, self.tree.stated(*found.groups()[:2]))
        found = CODE.match(span)
        if found:
            file = self.tree.code.get(found.groups()[:2])
            return self._declared(path, number, found, [file] if file else [])
        found = ANSWERS.match(span)
        if found:
            files = [f for f in self.tree.antt() if f.path == found.group(1)]
            if not files or found.group(2) not in files[0].names():
                self._fault(path, number, f"{found.group(1)} has no name {found.group(2)}")
            self._cite(path, number, found.group(1), found.group(2))
            return None, None
        found = PAIR.match(span)
        if found and found.group(1) in self.tree.crates:
            key = (found.group(1), found.group(2))
            self.edits.setdefault(path, set()).add(key)
            if key not in self.tree.edits:
                self._fault(path, number, f"there is no edit crates/{key[0]}/must-fail/{key[1]}.edit")
        elif PATH.match(span) and not span.startswith("target/") and not self._is_path(path, span):
            self._fault(path, number, f"there is no crate, edit or path {span}")
        return None, None

    def _declared(self, path, number, found, files):
        crate, file, name = found.groups()
        if not files:
            self._fault(path, number, f"there is no file for {crate}/{file}")
            return None, None
        source = next((f for f in files if name in f.names()), files[0])
        if name is None:
            return None, source
        if name not in source.names():
            self._fault(path, number, f"{source.path} has no name {name}")
            return None, source
        self._cite(path, number, source.path, name)
        block = source.block(name)
        return (source, block) if block else None, source

    def _places(self):
        if not hasattr(self, "_all"):
            self._all = set(self.tree.paths)
            for path in self.tree.paths:
                while "/" in path:
                    path = path.rsplit("/", 1)[0]
                    self._all.add(path)
        return self._all

    def _is_path(self, path, span):
        span = span.rstrip("/")
        for folder in ("", os.path.dirname(path)):
            if fnmatch.filter(self._places(), os.path.normpath(os.path.join(folder, span))):
                return True
        return False


def check(tree, citations):
    faults = list(citations.faults)
    claimed = citations.edits.get("docs/CLAIMS.md", set())
    for key, path in sorted(tree.edits.items()):
        if key not in claimed:
            faults.append((path, 1, f"docs/CLAIMS.md does not cite the edit {key[0]}/{key[1]}"))
    return faults
