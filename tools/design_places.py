#!/usr/bin/env python3
"""Counts the places of docs/DESIGN-PASS.md's points in crates/*/src (and, for point 8, in crates/*/proofs).

usage: python3 tools/design_places.py [--list] [COMMIT]

Without a commit it reads the working tree. --list prints each place. What it counts is the shape of the text: whether a
place should change is for a reader, and the page says what became of each.
"""
import collections
import re
import subprocess
import sys

LIST = "--list" in sys.argv
ARGS = [a for a in sys.argv[1:] if not a.startswith("--")]
COMMIT = ARGS[0] if ARGS else None


def git(*a):
    return subprocess.run(["git", *a], capture_output=True, text=True, check=True).stdout


def files(part, ending):
    if COMMIT:
        names = git("ls-tree", "-r", "--name-only", COMMIT, "crates").split("\n")
    else:
        names = git("ls-files", "--cached", "--others", "--exclude-standard", "crates").split("\n")
    for n in sorted(set(names)):
        if f"/{part}/" in n and n.endswith(ending):
            if COMMIT:
                yield n, git("show", f"{COMMIT}:{n}")
            else:
                try:
                    yield n, open(n, encoding="utf-8").read()
                except FileNotFoundError:
                    pass


def bare(text):
    return re.sub(r"//[^\n]*", "", text)


def closing(text, at, pair="{}"):
    depth = 0
    for i in range(at, len(text)):
        if text[i] == pair[0]:
            depth += 1
        elif text[i] == pair[1]:
            depth -= 1
            if depth == 0:
                return i
    return len(text) - 1


def split(text):
    """At the commas that stand in no bracket."""
    out, depth, part = [], 0, ""
    for ch in text:
        if ch in "([{<":
            depth += 1
        elif ch in ")]}>":
            depth -= 1
        if ch == "," and depth == 0:
            out.append(part.strip())
            part = ""
        else:
            part += ch
    return [p for p in out + [part.strip()] if p]


class Function:
    def __init__(self, file, text, m):
        self.file, self.line = file, text.count("\n", 0, m.start()) + 1
        self.name, self.extern = m.group(3), bool(m.group(2))
        at = text.index("(", m.end(3))
        end = closing(text, at, "()")
        self.params = split(text[at + 1:end])
        i = end + 1
        self.clauses = []
        while i < len(text):
            c = re.match(r"[^{;]*?\b(requires|ensures)\b[^{]*", text[i:])
            b = text.find("{", i)
            if c and i + c.end() == b:
                stop = closing(text, b)
                self.clauses.append((c.group(1), " ".join(text[b + 1:stop].split())))
                i = stop + 1
            else:
                break
        b = text.find("{", i)
        semi = text.find(";", i)
        self.body = "" if b < 0 or (0 <= semi < b) else text[b:closing(text, b) + 1]
        self.end = i + len(self.body)

    def where(self):
        return f"{self.file}:{self.line} {self.name}"


def functions(text, file):
    for m in re.finditer(r"^[ \t]*(pub(?:\(crate\))? )?(extern \"C\" )?fn ([a-z_0-9]+)", text, re.M):
        yield Function(file, text, m)


SRC = [(n, bare(t)) for n, t in files("src", ".rt")]
FNS = [f for n, t in SRC for f in functions(t, n)]
TEST = re.compile(r"#\[test\]")


def show(title, places):
    print(f"{len(places):5}  {title}")
    if LIST:
        for p in places:
            print("         " + p)


# 1 -------------------------------------------------------------------------------------------------------------
enums, flags = [], []
for n, t in SRC:
    for m in re.finditer(r"^[ \t]*(?:pub )?(enum|struct) ([A-Za-z]+)[^{;(]*\{", t, re.M):
        body = t[m.end():closing(t, m.end() - 1)]
        where = f"{n}:{t.count(chr(10), 0, m.start()) + 1} {m.group(2)}"
        parts = split(body)
        if m.group(1) == "enum":
            full = [p for p in parts if "(" in p or "{" in p]
            fault = [p for p in parts if re.match(r"(None|Fault|Refused|Malformed|Done)\b", p)]
            if len(parts) == 2 and full and fault:
                enums.append(where + ": " + ", ".join(parts))
        else:
            flag = [p for p in parts if re.search(r": bool$", p)]
            if flag and len(parts) > len(flag):
                flags.append(where + ": " + ", ".join(p.replace("pub ", "") for p in flag))
show("1a  enums of two cases, one a fault or nothing", enums)
show("1b  structs with a flag and values beside it", flags)
KIND = r"^(mut )?(code|number|fault|stage|refused|option|kind|which|op|curve|told|run|question|status)\w*: &?(u64|u8|usize)$"
kinds = [f.where() + "(" + ", ".join(p for p in f.params if re.match(KIND, p)) + ")" for f in FNS if not f.extern and any(re.match(KIND, p) for p in f.params)]
show("1c  functions with a number for a kind, a curve, a fault or a refusal among the parameters (C's aside)", kinds)

# 2 -------------------------------------------------------------------------------------------------------------
WORDS = {"let", "mut", "if", "else", "while", "for", "in", "return", "match", "fn", "true", "false", "as", "loop", "break", "continue", "self", "Some", "None", "Ok", "Err"}


def shape(f):
    names, out = {}, []
    for w in re.findall(r"'[a-z]+|b?\"[^\"]*\"|b?'[^']*'|0x[0-9a-f_]+|[0-9][0-9_.e\-]*(?:[ui](?:size|[0-9]+))?|[A-Za-z_][A-Za-z_0-9]*|[^\s]", f.body):
        if re.match(r"[0-9]|b?[\"']", w):
            out.append("#")
        elif re.match(r"[A-Za-z_]", w) and w not in WORDS:
            out.append(names.setdefault(w, f"n{len(names)}"))
        else:
            out.append(w)
    return tuple(out)


groups = collections.defaultdict(list)
for f in FNS:
    s = shape(f)
    if len(s) >= 24:
        groups[s].append(f)
twins = [" = ".join(f.where() for f in g) for g in groups.values() if len(g) > 1]
show("2   sets of functions that are one but for names, numbers and types (24 words or more)", twins)

# 3 -------------------------------------------------------------------------------------------------------------
counted, other = [], []
for n, t in SRC:
    for m in re.finditer(r"\bwhile ([^{]*)\{", t):
        body = t[m.end():closing(t, m.end() - 1)]
        where = f"{n}:{t.count(chr(10), 0, m.start()) + 1} while {' '.join(m.group(1).split())}"
        names = re.findall(r"[a-z_]+", m.group(1))
        if any(re.search(rf"\b{v} (\+=|-=) [0-9]+;|\b{v} = {v} [+-] [0-9]+;", body) for v in names):
            counted.append(where)
        else:
            other.append(where)
show("3   while loops that count an index by hand", counted)
show("3b  other while loops", other)

# 4 -------------------------------------------------------------------------------------------------------------
byhand = [f.where() for f in FNS if re.match(r"(same|equal|equals|is_equal|lesser|greater|compare|copy|clone|flag|wide|narrow|to_[a-z]+|from_[a-z]+|as_[a-z]+|is_[a-z]+_of|print_[a-z]+|show)(_|$)", f.name)]
show("4   functions whose name says equality, order, copy, conversion or printing", byhand)

# 5 -------------------------------------------------------------------------------------------------------------
show("5a  functions with seven parameters or more (C's aside)", [f"{f.where()} ({len(f.params)})" for f in FNS if len(f.params) >= 7 and not f.extern])
show("5b  functions with nine parameters or more (C's aside)", [f"{f.where()} ({len(f.params)})" for f in FNS if len(f.params) >= 9 and not f.extern])
facts = collections.defaultdict(set)
for f in FNS:
    for kind, c in f.clauses:
        if kind == "requires":
            for part in re.split(r" × ", c.replace("(", " ").replace(")", " ")):
                part = " ".join(part.split())
                if part:
                    facts[part].add(f.where())
show("5c  facts that stand in the requires of three functions or more", [f"{len(w)} {p}" for p, w in sorted(facts.items(), key=lambda x: -len(x[1])) if len(w) >= 3])

# 6 -------------------------------------------------------------------------------------------------------------
buffers = []
for n, t in SRC:
    for m in re.finditer(r"\blet mut (\w+) = (?:\[[^\]\n]*; ?[0-9_]+\]|room\w*\(\))|^ +(?:pub )?(\w+): \[[^\n]*; [0-9_A-Z]+\],", t, re.M):
        buffers.append(f"{n}:{t.count(chr(10), 0, m.start()) + 1} {' '.join(m.group(0).split())}")
show("6a  arrays of a fixed length as locals that are filled, and as fields", buffers)
pairs = [f"{f.where()}" for f in FNS if len([p for p in f.params if re.search(r": &(mut )?\[(f64|u8|usize)(; [0-9]+)?\]$", p)]) >= 2 and not f.extern]
show("6b  functions with two lists or more among the parameters", pairs)

# 7 -------------------------------------------------------------------------------------------------------------
ladders = []
for f in FNS:
    for v, k in collections.Counter(re.findall(r"\bif (\w+) == (?:[0-9]+|b'.')", f.body)).items():
        if k >= 2:
            ladders.append(f"{f.where()}: {k} tests of {v}")
show("7   functions that go by a number, one test after another", ladders)

# 8 -------------------------------------------------------------------------------------------------------------
proofs = list(files("proofs", ".antt"))
for name in ("Answers.antt", "Proof.antt", "Invariants.antt"):
    of = [(n, t) for n, t in proofs if n.endswith("/" + name)]
    print(f"{len(of):5}  8   {name}: files; lines {sum(t.count(chr(10)) for _, t in of)}")
lemmas = [(n, t) for n, t in proofs if not re.search(r"/(Answers|Proof|Invariants)\.antt$", n)]
print(f"{len(lemmas):5}  8   other files of proofs; lines {sum(t.count(chr(10)) for _, t in lemmas)}")
print(f"{sum(t.count(chr(10)) for _, t in SRC):5}  lines of src; {len(FNS)} functions")
