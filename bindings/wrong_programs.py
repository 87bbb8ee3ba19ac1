"""The last table of docs/WRONG_PROGRAMS.md, which has every wrong program. It is made from the edits: the comment at the head of each, `# ..`, says what
the wrong program does, or what the right one does where it departs. The crates stand in the order of crates.txt.

    wrong_programs.py ROOT            whether what stands below the last heading is that table
    wrong_programs.py ROOT --write    writes it there
"""

import itertools
import pathlib
import re
import sys

HEADING = "\n## All edits, crate by crate\n"
HEAD = ["", "| edit | the wrong program |", "|---|---|"]


def comment(edit):
    """What an edit's comment at its head says."""
    lines = list(itertools.takewhile(lambda line: line.startswith("#"), edit.read_text(encoding="utf-8").split("\n")))
    if not lines or not all(re.match(r"# [^|]+$", line) for line in lines):
        sys.exit(f"{edit}: it does not begin with a comment that says what the wrong program does")
    return " ".join(line[2:] for line in lines)


def table(root):
    """The lines below the heading."""
    crates = re.findall(r"^(\w+)[^:#\n]*:", (root / "crates.txt").read_text(encoding="utf-8"), flags=re.M)
    edits = [edit for crate in crates for edit in sorted((root / "crates" / crate).glob("must-fail/*.edit"))]
    missing = set(root.glob("crates/*/must-fail/*.edit")) - set(edits)
    if missing:
        sys.exit(f"{min(missing)}: crates.txt has no such crate")
    return HEAD + [f"| {edit.parts[-3]}/{edit.stem} | {comment(edit)} |" for edit in edits]


def main():
    root = pathlib.Path(sys.argv[1])
    document = root / "docs/WRONG_PROGRAMS.md"
    above, heading, below = document.read_text(encoding="utf-8").partition(HEADING)
    if not heading or "\n## " in below:
        sys.exit(f"{document}: its last heading is not '{HEADING.strip()}'")
    right = table(root)
    if sys.argv[2:] == ["--write"]:
        document.write_text(above + heading + "\n".join(right) + "\n", encoding="utf-8")
    elif below != "\n".join(right) + "\n":
        stands, should = next((a, b) for a, b in itertools.zip_longest(below.split("\n"), right + [""]) if a != b)
        sys.exit(f"{document}: not what `python3 bindings/wrong_programs.py . --write` writes; first difference:\n  stands: {stands}\n  should: {should}")
    print(f"{document}: {len(right) - len(HEAD)} wrong programs as the edits tell them")


main()
