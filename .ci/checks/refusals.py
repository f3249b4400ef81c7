"""docs/REFUSALS.md has a row for each refusal number that crates/tasks/src/refusal.rt names, in this order, and one for all others. The sample of a
row is a line that the program test_cases prints, by its stored output, and begins with the row's number."""

import re

PAGE, NUMBERS, PRINTED = "docs/REFUSALS.md", "crates/tasks/src/refusal.rt", "crates/test_cases/stdout"
ROW = re.compile(r"^\| (\d+|other) \|.*\| ([^|]*) \|$")


def check(tree):
    for path in (PAGE, NUMBERS, PRINTED):
        if path not in tree.text:
            return [(path, 1, "is missing: the page of refusals is held to it")]
    named = re.findall(r"^    [A-Z]\w+ = (\d+),$", tree.text[NUMBERS], re.M)
    printed = set(tree.text[PRINTED].splitlines())
    faults, shown = [], []
    for line, text in enumerate(tree.text[PAGE].splitlines(), 1):
        row = ROW.match(text)
        if not row:
            continue
        number, sample = row.groups()
        shown.append(number)
        if sample not in printed:
            faults.append((PAGE, line, f"the sample of {number} is no line of {PRINTED}"))
        if number != "other" and not sample.startswith(f"Refusal {number} "):
            faults.append((PAGE, line, f"the sample of {number} tells another number"))
    if shown != named + ["other"]:
        faults.append((PAGE, 1, f"its rows are {', '.join(shown)}, and {NUMBERS} has {', '.join(named)}"))
    return faults
