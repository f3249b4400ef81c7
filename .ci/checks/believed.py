"""README.md's list of definitions to believe is closed: what the contract of an offered call names is declared in a file on it, and so is what a
definition or a statement of such a file names.

The list goes from "A reader who wants to believe the product" to the next heading; its files are given as `crate/File` or by their path. The calls are
those of README.md's table. Records, types and definitions count; laws, which proofs name, do not, and neither do the types of the code (`declared`),
which the files name as they are."""

import re

from meaning import Meaning, is_law
from source import SPEC_MODULE, occurs

PAGE, FIRST = "README.md", "A reader who wants to believe the product"
LISTED = re.compile(r"`(?:crates/(\w+)/specs/(\w+)\.antt|(\w+)/([A-Z]\w*))`")
CALL = re.compile(r"^\| `(?:(\w+)::)?(\w+)\([^`]*\)` \|")


def listed(tree):
    """The files of the list, each with its line."""
    files, inside = {}, False
    for number, line in enumerate(tree.text.get(PAGE, "").splitlines(), 1):
        inside = line.startswith(FIRST) or inside and not line.startswith("#")
        for found in LISTED.findall(line) if inside else []:
            files.setdefault((found[0] or found[2], found[1] or found[3]), number)
    return files


def offered(tree):
    """The calls of the table, `crate::name(…)`, each with its line; those without a crate are the C functions of the two libraries."""
    for number, line in enumerate(tree.text.get(PAGE, "").splitlines(), 1):
        call = CALL.match(line)
        if call:
            yield number, call.group(1) or library(call.group(2)), call.group(2)


def library(name):
    """The crate that exports a C function."""
    return "dahomike_engine" if name.startswith("dahomike_engine_") else "dahomike"


def check(tree):
    files = listed(tree)
    if not files:
        return [(PAGE, 1, "has no list of definitions to believe")]
    return contracts(tree, files) + definitions(tree, files)


def contracts(tree, files):
    faults = []
    for line, crate, name in offered(tree):
        found = [(f, b) for f in tree.code.values() if f.crate == crate for b in f.functions() if b.name == name]
        for item in found[0][0].imports if found else []:
            module = SPEC_MODULE.match(item.path)
            if module and not module.group(2).startswith("declared") and module.groups() not in files and occurs(item.alias, contract(*found[0])):
                faults.append((PAGE, line, f"the list has not {'/'.join(module.groups())}: the contract of {name} names {item.name}"))
        if not found:
            faults.append((PAGE, line, f"there is no function {name} in the crate {crate}"))
    return faults


def contract(file, block):
    return "\n".join(file.plain[block.contract[0] : block.contract[1]])


def definitions(tree, files):
    faults, meaning = [], Meaning(tree)
    for module, line in files.items():
        file = tree.specs.get(module)
        missing = {}
        for block in file.blocks if file else []:
            for other, named in meaning.named(file, block):
                if (other.crate, other.module) not in files and not is_law(other, named):
                    missing.setdefault((other.crate, other.module), f"{block.name} names {named.name}")
        for (crate, module), why in sorted(missing.items()):
            faults.append((PAGE, line, f"the list has {file.crate}/{file.module} and not {crate}/{module}: {why}"))
    return faults
