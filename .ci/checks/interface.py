"""The C functions are declared alike in Rattle, in Rust and in the C header: names, order and types of parameters, and the result. A number that
stands in several places is the same in all of them: the length of the longest sentence, which callers lend, and how many bytes `plan` reads.

A parameter becomes a pair of name and type: `u8*` for a pointer to one or more of a type, with `const ` where it is only read, and `u8*8` for a
pointer to an array of 8. A slice of Rattle is a pointer and a length. An array of C may have a length that the header defines by name."""

import re

BORDERS = (
    ("dahomike_c", "rust/dahomike/src/lib.rs", "include/dahomike.h"),
    ("dahomike_engine", "rust/dahomike_engine/src/lib.rs", "include/dahomike_engine.h"),
)
SHARED = {
    "the longest sentence has": (
        ("crates/wording/specs/Sentence.antt", r"^longest = (\d+)$"),
        ("crates/sentence/src/lib.rt", r"^pub const LONGEST: usize = (\d+);$"),
        ("rust/dahomike/src/lib.rs", r"^pub const LONGEST_SENTENCE: usize = (\d+);$"),
        ("include/dahomike.h", r"^#define DAHOMIKE_LONGEST_SENTENCE (\d+)$"),
    ),
    "the program plan reads at most": (
        ("crates/text/specs/TextLaws.antt", r"^pub long-text : .* (\d+) ≤ length t → printed \(take \1 t\) ≡ printed t$"),
        ("crates/plan/src/main.rt", r"^const MOST: usize = (\d+);$"),
        ("docs/CLAIMS.md", r"`plan/main.rt: main` reads at most ([\d,]+) bytes"),
        ("docs/DECISIONS.md", r"^\*\*The program reads at most ([\d,]+) bytes\.\*\*"),
    ),
}
C_TYPES = {"uint8_t": "u8", "uint16_t": "u16", "uint32_t": "u32", "uint64_t": "u64", "size_t": "usize", "bool": "bool"}


def check(tree):
    faults = []
    for crate, rust, header in BORDERS:
        proved = {}
        for file in tree.code.values():
            if file.crate == crate:
                proved.update(rattle(file))
        for path, read in ((rust, rust_functions), (header, c_functions)):
            if path not in tree.text:
                faults.append((path, 1, f"is missing: it declares the C functions of {crate}"))
                continue
            faults += compare(proved, path, read(tree.text[path]))
    return faults + [fault for what, places in SHARED.items() for fault in shared(tree, what, places)]


def shared(tree, what, places):
    """The faults of the places that give a number: each gives it, and the same as the first, which is the proved one."""
    faults, first = [], None
    for path, form in places:
        found = re.search(form, tree.text.get(path, ""), re.M)
        if not found:
            faults.append((path, 1, f"it is not said how many bytes {what}"))
            continue
        number = found.group(1).replace(",", "")
        first = first or number
        if number != first:
            line = tree.text[path][: found.start()].count("\n") + 1
            faults.append((path, line, f"{what} {number} bytes here, and {first} in {places[0][0]}"))
    return faults


def compare(proved, path, declared):
    for name, (source, line, form) in proved.items():
        if name not in declared:
            yield source, line, f"{path} does not declare {name}"
        elif declared[name][1] != form:
            yield path, declared[name][0], f"{name} is {show(declared[name][1])}, in {source} {show(form)}"
    for name, (line, _) in declared.items():
        if name not in proved:
            yield path, line, f"no C function {name} is in the proved code"


def show(form):
    parameters, result = form
    return "(" + ", ".join(f"{name}: {kind}" for name, kind in parameters) + f") -> {result}"


def rattle(file):
    found = {}
    for block in file.functions():
        if not block.exported:
            continue
        text = " ".join(file.plain[block.line : max(block.contract[0], block.line + 1)])
        inner, result = re.match(r".*?\((.*)\)\s*(?:->\s*(\w+))?", text).groups()
        parameters = []
        for name, kind in fields(inner):
            slice_of = re.fullmatch(r"&(mut )?\[(\w+)\]", kind)
            if slice_of:
                const = "" if slice_of.group(1) else "const "
                parameters += [(name, f"{const}{slice_of.group(2)}*"), (f"{name}_len", "usize")]
            else:
                parameters.append((name, plain(kind)))
        found[block.name] = (file.path, block.line + 1, (parameters, result or "none"))
    return found


def fields(inner):
    """`a: A, b: [B; 8]` taken apart: commas inside brackets do not part."""
    for part in re.findall(r"(?:[^,\[]|\[[^\]]*\])+", inner):
        if part.strip():
            name, _, kind = part.strip().partition(":")
            yield name.strip(), kind.strip()


def plain(kind):
    """A number, or a reference or pointer to a number or an array."""
    behind = re.fullmatch(r"(&mut |&|\*mut |\*const )\s*(.*)", kind)
    if not behind:
        return kind
    const = "const " if behind.group(1) in ("&", "*const ") else ""
    array = re.fullmatch(r"\[(\w+); (\d+)\]", behind.group(2))
    return f"{const}{array.group(1)}*{array.group(2)}" if array else f"{const}{behind.group(2)}*"


def rust_functions(text):
    found = {}
    text = re.sub(r"//.*", "", text)
    for block in re.finditer(r'extern "C" \{(.*?)\n    \}', text, re.S):
        for made in re.finditer(r"fn (\w+)\((.*?)\)\s*(?:->\s*(\w+))?;", block.group(1), re.S):
            line = text[: block.start(1) + made.start()].count("\n") + 1
            parameters = [(name, plain(kind)) for name, kind in fields(" ".join(made.group(2).split()))]
            found[made.group(1)] = (line, (parameters, made.group(3) or "none"))
    return found


def c_functions(text):
    found = {}
    bare = re.sub(r"/\*.*?\*/", lambda m: re.sub(r"[^\n]", " ", m.group()), text, flags=re.S)
    lengths = dict(re.findall(r"^#define (\w+) (\d+)$", bare, re.M))
    for made in re.finditer(r"^(\w+)\s+(\w+)\(([^)]*)\);", bare, re.M):
        parameters = []
        for part in made.group(3).split(","):
            const, kind, star, name, length = re.match(r"\s*(const )?(\w+)\s*(\*?)\s*(\w+)(?:\[(\w+)\])?", part).groups()
            array = f"*{lengths.get(length, length)}" if length else ""
            parameters.append((name, (const or "") + C_TYPES.get(kind, kind) + star + array))
        line = bare[: made.start()].count("\n") + 1
        found[made.group(2)] = (line, (parameters, C_TYPES.get(made.group(1), made.group(1))))
    return found
