"""Whether include/kemroul.h declares what crates/kemroul/src/lib.rt exports: the same functions, each with the same types in
the same order. A slice is a pointer and a size_t; a usize is 64 bits wide on x86-64, so as a number it is a uint64_t.

    declarations.py HEADER LIB_RT
"""

import re
import sys

C_TYPES = {
    "u64": ["uint64_t"],
    "usize": ["uint64_t"],
    "f64": ["double"],
    "&[f64]": ["const double *", "size_t"],
    "&[usize]": ["const uint64_t *", "size_t"],
    "&mut [f64]": ["double *", "size_t"],
    "&mut f64": ["double *"],
    "&mut u64": ["uint64_t *"],
}


def declared(text):
    """name -> types, the result's first"""
    text = re.sub(r"/\*.*?\*/", "", text, flags=re.S)
    found = {}
    for result, name, arguments in re.findall(r"(\w+) (kemroul_\w+)\(([^)]*)\);", text):
        types = [re.sub(r"\w+$", "", " ".join(a.split())).strip() for a in arguments.split(",")]
        found[name] = [result] + types
    return found


def exported(text):
    found = {}
    pattern = r'#\[unsafe\(no_mangle\)\]\npub extern "C" fn (\w+)\(([^)]*)\) -> (\w+)'
    for name, arguments, result in re.findall(pattern, text):
        types = [a.split(":", 1)[1].strip() for a in arguments.split(",") if a.strip()]
        found[name] = C_TYPES[result] + [c for t in types for c in C_TYPES[t]]
    return found


def main():
    header, library = (open(path, encoding="utf-8").read() for path in sys.argv[1:3])
    in_header, in_library = declared(header), exported(library)
    if not len(in_library) == library.count("no_mangle") == library.count('extern "C" fn'):
        sys.exit("declarations: an exported function was not read")
    wrong = [n for n in sorted({*in_header, *in_library}) if in_header.get(n) != in_library.get(n)]
    for name in wrong:
        print(f"{name}: the header has {in_header.get(name)}, the library {in_library.get(name)}")
    if wrong:
        sys.exit(1)
    print(f"{len(in_library)} functions are declared as they are exported")


main()
