"""Whether the documents that name edits and files are up to date. Of docs/PROMISES.md: each line that it shows stands in the sources, and each function
of the header has a section. Of README.md and of each document of docs/: each edit and each file that it names exists. Of docs/ARCHITECTURE.md: the map
has every crate.

    promises.py ROOT
"""

import pathlib
import re
import sys

SHOWN = [
    "kemroul/src/lib.rt",
    "fit/proofs/Demand3.antt",
    "read_decimal/src/lib.rt",
    "read_decimal/proofs/Nearest.antt",
    "read_table/src/lib.rt",
    "refit_calculation/src/lib.rt",
    "refit_run/src/lib.rt",
    "refit_options/src/help.rt",
    "refit_options/src/options.rt",
    "svg_picture/src/lib.rt",
    "text_floats/src/lib.rt",
]
FOLDERS = "bench|bindings|crates|docs|examples|include|oracle|tools|vectors"


def plain(text):
    return " ".join(text.split())


def promised(root, text):
    """The lines shown that no source has, and the functions that no heading names."""
    code = plain(" ".join((root / "crates" / path).read_text(encoding="utf-8") for path in SHOWN))
    blocks = re.findall(r"(?:^    .*\n)+", text, flags=re.M)
    shown = [part for block in blocks for part in re.split(r"kemroul_\w+: ", plain(block)) if part]
    functions = re.findall(r'pub extern "C" fn (\w+)', code)
    stale = [part for part in shown if part.strip() not in code]
    untold = [name for name in functions if not re.search(rf"^## .*\b{name}\b", text, flags=re.M)]
    return len(shown), stale + untold


def main():
    root = pathlib.Path(sys.argv[1])
    crates = {path.parent.parent.name for path in root.glob("crates/*/src/*.rt")}
    edits = {f"{path.parent.parent.name}/{path.stem}" for path in root.glob("crates/*/must-fail/*.edit")}
    paths = [root / "README.md", *sorted(root.glob("docs/*.md"))]
    texts = {path.relative_to(root).as_posix(): path.read_text(encoding="utf-8") for path in paths}

    lines, faults = promised(root, texts["docs/PROMISES.md"])
    wrong = [("docs/PROMISES.md", what) for what in faults]
    architecture = "docs/ARCHITECTURE.md"
    wrong += [(architecture, f"no crate {name}") for name in sorted(crates) if f"`{name}`" not in texts[architecture]]
    either = "|".join(sorted(crates))
    for name, text in texts.items():
        named = re.findall(rf"(?<![\w/])((?:{either})/\w+)(?![\w/.])", text)
        wrong += [(name, edit) for edit in sorted(set(named) - edits) if not (root / "crates" / edit).is_dir()]
        files = re.findall(rf"(?<![\w])((?:{either})/(?:src|specs|proofs)/[\w/]+\.(?:rt|antt))", text)
        wrong += [(name, file) for file in sorted(set(files)) if not (root / "crates" / file).is_file()]
        # What a command makes stands in out/; NAME and F stand for any name.
        others = re.findall(rf"(?<![\w./])((?:{FOLDERS})/[\w./-]*\w)(?![\w*])", text)
        others = [other for other in others if not re.search(r"/out/|\bNAME\b|\bF\b", other)]
        wrong += [(name, other) for other in sorted(set(others)) if not (root / other).exists()]
    for name, what in wrong:
        print(f"{name}: not up to date: {what}")
    if wrong:
        sys.exit(1)
    print(f"docs: {lines} promised lines as in the sources, {len(edits)} edits, {len(crates)} crates")


main()
