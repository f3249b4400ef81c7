"""Each crate, module and function that docs/DECISIONS.md names in a code span exists.

A span that is one name (`choose`, `first_names`, `hasDeadlines`, `late-none`, `Answer`), a name with what it is called with (`test_slack(plan, offers)`)
or a path (`text::text`) is the name of
    a crate of crates.txt, or a package in rust/;
    a call of README.md's table (believed.py);
    a declaration of a file that its paragraph cites, `crate/File` or `crate/file.rt`;
    a function, type, case, constant, definition or module of a crate or package that its paragraph names, or that the path begins with.
A field or a parameter is no such name: it stands in brackets behind its type, where citations.py looks. Words of the language and of the toolchain's
crates are not ours."""

import os
import re

from believed import offered
from citations import CODE, SPAN, SPEC

PAGE = "docs/DECISIONS.md"
ONE = re.compile(r"([A-Za-z]\w*(?:-\w+)*)(?:\(.*\))?")
PATH = re.compile(r"([a-z_]\w*)::(\w+)")
LANGUAGE = {"loop", "break", "requires"}
KIT = {"io", "libc"}
IN_RUST = re.compile(r"^\s*(?:pub(?:\([^)]*\))? )?(?:const |unsafe )*(?:fn|struct|enum|const|mod|trait) (\w+)", re.M)


def check(tree):
    known, faults = Known(tree), []
    for paragraph in paragraphs(tree.text.get(PAGE, "")):
        about = known.about(paragraph)
        for number, span in paragraph:
            name = known.missing(span, about)
            if name:
                faults.append((PAGE, number, f"there is no {name} among the crates, nor in what this paragraph names"))
    return faults


def paragraphs(text):
    """Each paragraph as its code spans with their lines, without those in brackets behind a cited name."""
    found, spans = [], []
    for number, line in enumerate(text.splitlines(), 1):
        if not line.strip() or line.startswith("    "):
            found.append(spans)
            spans = []
            continue
        end, bracket, before = 0, False, False
        for match in SPAN.finditer(line):
            between = line[end : match.start()]
            bracket = before and (between == " (" or bracket and ")" not in between)
            if not bracket:
                cited = SPEC.match(match.group(1)) or CODE.match(match.group(1))
                before = cited and cited.group(3)
                spans.append((number, match.group(1)))
            end = match.end()
    return found + [spans]


class Known:
    """The names of each crate, of each file and of each package in rust/."""

    def __init__(self, tree):
        self.files, self.crates = {}, {crate: set() for crate in tree.crates}
        self.calls = {name for _, _, name in offered(tree)}
        for file in list(tree.specs.values()) + list(tree.code.values()):
            names = declared(file)
            self.files[file.path] = names
            self.crates.setdefault(file.crate, set()).update(names, {os.path.basename(file.path).split(".")[0]})
        for path in tree.text:
            package = re.match(r"^rust/(\w+)/", path)
            if package:
                into = self.crates.setdefault(package.group(1), set())
                into.update(IN_RUST.findall(tree.text[path]) if path.endswith(".rs") else ())

    def about(self, paragraph):
        """All names that the paragraph may use alone."""
        names = set(self.crates) | self.calls | LANGUAGE
        for _, span in paragraph:
            spec, code, path = (form.match(span) for form in (SPEC, CODE, PATH))
            names |= self.crates.get(path.group(1) if path else span.removeprefix("rust/"), set())
            if spec:
                for folder in ("specs", "proofs"):
                    names |= self.files.get(f"crates/{spec.group(1)}/{folder}/{spec.group(2)}.antt", set())
            names |= self.files.get(f"crates/{code.group(1)}/src/{code.group(2)}" if code else span, set())
        return names

    def missing(self, span, about):
        """The name in a span that is not there, or nothing."""
        path, one = PATH.fullmatch(span), ONE.fullmatch(span)
        if path and path.group(1) not in KIT:
            there = path.group(2) in self.crates.get(path.group(1), set())
            return None if there else span
        return one.group(1) if one and one.group(1) not in about else None


def declared(file):
    """What a file declares, with the cases of its types: `taken` of a data type, `Refused` of an enum."""
    names = {block.name for block in file.blocks}
    for block in file.blocks:
        if block.kind == "data":
            names |= {part for part, _ in block.parts}
        elif block.kind == "enum":
            names |= set(re.findall(r"^\s+([A-Z]\w*)", "\n".join(file.plain[block.line + 1 : block.end + 1]), re.M))
    return names
