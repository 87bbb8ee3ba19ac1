#!/usr/bin/env python3
"""Makes the buildable copies of the published Rust, below target/copy.

    copy_source.py SOURCE COPY

SOURCE holds the published files as src/nlmm/fit.rs and so on; COPY/replaced and COPY/unreplaced are written, each
file only where it changes. Every edit is an exact text with the number of times that it stands in the file; any other
number ends the run with an error that names the text. Files are taken whole, except that fit.rs and formula.rs
give only the parts in scope, cut at exact anchors. What both copies are given: hooks that count. What the copy
`replaced` is given besides: exp, ln and the tie rule of maximum and minimum. The crates ndarray and
ndarray_linalg are stood in for by crates of this workspace, with no edit here.
"""

import pathlib
import sys


def fail(message):
    sys.exit(f"copy_source.py: {message}")


def replace(name, text, old, new, count):
    found = text.count(old)
    if found != count:
        fail(f"{name}: expected {count} times, found {found}: {old!r}")
    return text.replace(old, new)


def cut(name, text, first, last):
    """The text from `first` to the end of `last`; each stands there once, in this order."""
    for anchor in (first, last):
        if text.count(anchor) != 1:
            fail(f"{name}: expected once, found {text.count(anchor)}: {anchor!r}")
    start, end = text.index(first), text.index(last) + len(last)
    if end <= start:
        fail(f"{name}: {first!r} does not come before {last!r}")
    return text[start:end]


# The files taken whole, and how often exp, ln, .max(, f64::max and f64::min stand in each.
WHOLE = {
    "quadrature.rs": (1, 1, 0, 1, 0),
    "nlmm/block_solve.rs": (0, 0, 2, 0, 0),
    "nlmm/mean_fn.rs": (0, 0, 0, 0, 0),
    "nlmm/re_cov.rs": (0, 1, 4, 0, 0),
    "nlmm/self_start.rs": (1, 18, 21, 8, 4),
    "nlmm/ssasymp.rs": (2, 0, 0, 0, 0),
    "nlmm/ssfpl.rs": (0, 0, 0, 0, 0),
    "nlmm/sslogis.rs": (1, 0, 0, 0, 0),
    "nlmm/ssmicmen.rs": (0, 0, 1, 0, 0),
}
FIT_COUNTS = (0, 8, 4, 2, 0)

# `.min(` of numbers stands once, in the fit; in self_start.rs it is the smaller of two lengths and stays.
MIN = {"nlmm/fit.rs": [("(lambda_lm * 10.0).min(1e6)", "(lambda_lm * 10.0).first_min(1e6)", 1)]}
LENGTHS = "let n = x.len().min(y.len());"

FIT_USES = [
    ("use std::sync::Arc;", "use std::sync::Arc;\n"),
    ("use crate::nlmm::mean_fn::{", "use crate::nlmm::mean_fn::{eval_mean_with_re, NlmmMeanEval};\n"),
    ("use crate::nlmm::re_cov::{", "sigma_inv_from_theta, theta_len,\n};\n"),
    ("use crate::quadrature::{", "use crate::quadrature::{gh_rule, log_sum_exp, resolve_gh_order, resolve_gh_order_product};\n"),
    ("use ndarray::Array1;", "use ndarray::Array1;\n"),
    ("use ndarray_linalg::{", "use ndarray_linalg::{Cholesky, Inverse, UPLO};\n"),
    ("/// Starting values for fixed nonlinear parameters (by name).\n", "pub type NlmmStart = std::collections::HashMap<String, f64>;\n"),
]

# The hooks: a fit begins, with its start; a trial; an accepted state; a criterion.
HOOKS = [
    (
        "        let mut b = Array1::<f64>::zeros(self.m * self.k_re);\n",
        "        let mut b = Array1::<f64>::zeros(self.m * self.k_re);\n"
        "        crate::hooks::begin();\n"
        "        crate::hooks::state(&params, &b, || self.penalized_rss(&params, &b, theta));\n",
        1,
    ),
    (
        "                    let new_obj = self.penalized_rss(&new_params, &nb, theta);\n",
        "                    crate::hooks::trial();\n"
        "                    let new_obj = self.penalized_rss(&new_params, &nb, theta);\n",
        1,
    ),
    (
        "                        b = nb;\n",
        "                        b = nb;\n                        crate::hooks::state(&params, &b, || new_obj);\n",
        1,
    ),
    (
        "        let (params, b, rss) = self.inner_gauss_newton(theta, start, max_inner);\n",
        "        crate::hooks::fit();\n"
        "        let (params, b, rss) = self.inner_gauss_newton(theta, start, max_inner);\n",
        1,
    ),
]


def fit_in_scope(text):
    name = "nlmm/fit.rs"
    parts = [cut(name, text, first, last) for first, last in FIT_USES]
    problem = cut(
        name, text, "#[derive(Clone)]\nstruct NlmmProblem {", "\n}\n\n/// Golden-section search for a scalar Cholesky diagonal (k = 1).\n"
    )
    golden = cut(name, text, "#[allow(clippy::too_many_arguments)]\nfn optimize_theta_golden(", "\n}\n\nstruct ThetaObjective<'a> {\n")
    golden = golden.removesuffix("\nstruct ThetaObjective<'a> {\n")
    body = "".join(parts) + "\n" + problem + golden
    for old, new, count in HOOKS:
        body = replace(name, body, old, new, count)
    return body + "\npub mod access;\n"


def formula_in_scope(text):
    part = cut(
        "nlmm/formula.rs",
        text,
        "/// Supported nonlinear mean functions in the middle part of the formula.\n",
        "\n}\n\n/// Parse a three-part custom-mean formula",
    )
    return part.removesuffix("\n/// Parse a three-part custom-mean formula")


def replaced(name, text, counts):
    """exp, ln and the tie rule."""
    exps, lns, maxs, max_paths, min_paths = counts
    for old, new, count in MIN.get(name, []):
        text = replace(name, text, old, new, count)
    text = replace(name, text, ".exp()", ".fdlibm_exp()", exps)
    text = replace(name, text, ".ln()", ".fdlibm_ln()", lns)
    text = replace(name, text, ".max(", ".first_max(", maxs)
    text = replace(name, text, "f64::max", "f64::first_max", max_paths)
    text = replace(name, text, "f64::min", "f64::first_min", min_paths)
    text = replace(name, text, ".min(", ".min(", text.count(LENGTHS))
    # Other spellings of the same, which the counts above would not see.
    for other in ("f64::exp", "f64::ln", ".exp2", ".exp_m1", ".log", "f64::log", ".ln_1p", ".powf", ".clamp", ".mul_add"):
        replace(name, text, other, other, 0)
    if sum(counts) + len(MIN.get(name, [])) > 0:
        text += "\nuse crate::replaced::Replaced;\n"
    return text


def write(path, text):
    path.parent.mkdir(parents=True, exist_ok=True)
    if not path.exists() or path.read_text() != text:
        path.write_text(text)


def main():
    if len(sys.argv) != 3:
        sys.exit(__doc__)
    source, copy = map(pathlib.Path, sys.argv[1:])
    here = pathlib.Path(__file__).resolve().parent
    if not (source / "src/nlmm/fit.rs").is_file():
        fail(f"no src/nlmm/fit.rs in {source}")

    texts = {name: ((source / "src" / name).read_text(), counts) for name, counts in WHOLE.items()}
    texts["nlmm/fit.rs"] = (fit_in_scope((source / "src/nlmm/fit.rs").read_text()), FIT_COUNTS)
    texts["nlmm/formula.rs"] = (formula_in_scope((source / "src/nlmm/formula.rs").read_text()), (0, 0, 0, 0, 0))
    around = {str(path.relative_to(here / "around")): path.read_text() for path in sorted((here / "around").rglob("*.rs"))}
    # fit.rs is the parent of access.rs.
    around["nlmm/fit/access.rs"] = around.pop("nlmm/access.rs")
    # block_solve.rs is the parent of block_access.rs.
    around["nlmm/block_solve/access.rs"] = around.pop("nlmm/block_access.rs")
    text, counts = texts["nlmm/block_solve.rs"]
    texts["nlmm/block_solve.rs"] = (text + "\npub mod access;\n", counts)
    # The operations exp and ln are replaced like the rest.
    texts["operations.rs"] = (around.pop("operations.rs"), (1, 1, 0, 0, 0))

    for name, (text, counts) in texts.items():
        write(copy / "unreplaced" / name, text)
        write(copy / "replaced" / name, replaced(name, text, counts))
    for name, text in around.items():
        for variant in ("unreplaced", "replaced"):
            write(copy / variant / name, text)
    print(f"copied {len(texts) - 1} files of the source, {len(around) + 1} around them", flush=True)


main()
