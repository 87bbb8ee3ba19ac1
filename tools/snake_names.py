"""Brings the repository's own definitions and lemmas to today's spelling, once, after port.py: words in snake case, as `expOf` to `exp_of` and
`every-at` to `every_at`. A lemma that would have a definition's name gets `_lem`. Names of the Rust code, types, modules and constants keep theirs.

    snake_names.py ROOT
"""

import os
import pathlib
import re
import sys

TOKEN = re.compile(r"[^\s(){}\[\]\",;.@\\λ«»]+")
DECLARED = re.compile(r"(?m)^ *(?:abbrev |unfoldable )?(?:pub )?((?:[^\s:(){},.]+ )*[^\s:(){},.]+) :(?= |$)")
KEYWORDS = {"let", "in", "rw", "where", "use", "module", "λ"}
# Lemmas whose name a definition has, or that says of a function what it computes.
LEMMAS = {
    "is-nan", "same_bytes", "pair-at", "is-some", "sum-of", "with-sign", "is-lower", "is-upper", "is-direction", "has-digit", "ends-right", "dose-of",
    "finite-pairs", "two-pi", "near-root", "golden-over", "each_at",
}


def sources(root, ending):
    for path in sorted((root / "crates").glob("*/*/**/*" + ending)):
        if "out" not in path.relative_to(root).parts:
            yield path


def snake(name):
    out = re.sub(r"([a-z0-9])([A-Z])", r"\1_\2", name) if re.match("[a-z_]", name) else name
    if re.match("[a-z_]", name):
        out = out.lower()
    out = out.replace("-", "_")
    return out + "_lem" if name in LEMMAS else out


def own(root):
    found = set()
    for path in sources(root, ".antt"):
        if path.name == "Proof.antt":
            continue
        text = re.sub("--.*", "", path.read_text(encoding="utf-8"))
        for names in DECLARED.findall(text):
            for name in names.split():
                if name in KEYWORDS:
                    break
                if re.match("[A-Za-z]", name):
                    found.add(name)
    return {name: snake(name) for name in found if snake(name) != name}


def main():
    root = pathlib.Path(sys.argv[1])
    turned = own(root)
    humps = {old: new for old, new in turned.items() if "-" not in old and old not in LEMMAS}
    for ending, table in ((".antt", turned), (".edit", turned), (".rt", humps)):
        for path in sources(root, ending):
            text = path.read_text(encoding="utf-8")
            new = TOKEN.sub(lambda m: table.get(m[0], m[0]), text)
            if new != text:
                path.write_text(new, encoding="utf-8")
    print(f"{len(turned)} names")


main()
