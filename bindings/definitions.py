"""What a reader has to believe, counted; and that nothing else stands beside it: a file directly in a crate's specs/ holds definitions only, and what is
proved of them stands in specs/laws/. A definition is a record, an enum or a function that can be opened (`abbrev`, `unfoldable`) and whose result is no
equation, no order and no proof; any other signature is a lemma.

    definitions.py ROOT
"""

import pathlib
import re
import sys

SIGNATURE = re.compile(r"^( *)((?:(?:abbrev|unfoldable|pub) )*)([^\s=]+(?: [^\s=]+)*?)(?: \{[^}]*\})? : (.*)$")
PROOF = re.compile(r" (?:≡|≤|<) |^◌[≡≤<]◌ |⊥|^T |^Unit ")


def result(kind):
    """What stands after the last arrow outside brackets."""
    depth, last = 0, 0
    for at, letter in enumerate(kind):
        depth += (letter in "({") - (letter in ")}")
        if letter == "→" and depth == 0:
            last = at + 1
    return kind[last:].strip()


def lemmas(lines):
    """The names of a file's lemmas. Records' fields and what stands under a `where` are indented deeper than the signatures around them."""
    level, skipped = 0, None
    for at, line in enumerate(lines):
        indent = len(line) - len(line.lstrip())
        if not line.strip() or line.lstrip().startswith(("--", "use ", "unfolding ")):
            continue
        if skipped is not None and indent > skipped:
            continue
        skipped = None
        if line.lstrip().startswith("module "):
            level = indent + 2
            continue
        level = min(level, indent)
        if re.match(r" *(pub )?(record|data) ", line):
            skipped = indent
            continue
        found = SIGNATURE.match(line)
        if not found or indent != level:
            continue
        kind = [found[4]]
        for more in lines[at + 1 :]:
            if len(more) - len(more.lstrip()) <= indent:
                break
            kind.append(more.strip())
        skipped = indent
        if "abbrev" not in found[2] and "unfoldable" not in found[2] or PROOF.search(result(" ".join(kind))):
            yield found[3]


def main():
    crates = pathlib.Path(sys.argv[1]) / "crates"
    believed = laws = 0
    wrong = []
    for path in sorted(crates.glob("*/specs/**/*.antt")):
        lines = path.read_text(encoding="utf-8").splitlines()
        counted = sum(bool(line.strip()) and not line.lstrip().startswith(("--", "use ")) for line in lines)
        if path.parent.name == "laws":
            laws += counted
            continue
        believed += counted
        wrong += [f"{path.relative_to(crates.parent)}: {name} is a lemma, and belongs in specs/laws/" for name in lemmas(lines)]
    print("\n".join(wrong + [f"specs: {believed} lines of definitions, {laws} lines of laws, without comments, imports and empty lines"]))
    sys.exit(1 if wrong else 0)


main()
