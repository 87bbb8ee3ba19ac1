"""A bound on the stack that each exported function of libkemroul.a needs, read from its machine code.

    bound.py ARCHIVE HEADER

Every path of every function is followed (objdump's listing, with the relocations that name the callees), the
frames of callees are added, and the one function that calls itself, the sort of at most 512 readings, is counted
at the six levels that halving 512 down to 16 has. The return address counts; the arguments that the caller
pushes, and what memcpy and memset need beyond their return address, do not. It ends with an error where the header
states another figure, and where a section of the archive may be written, which the header denies.
"""

import re
import subprocess
import sys

LEVELS = {"sorting::sort_within": 6}
OUTSIDE = {"memcpy": 8, "memset": 8}
RED_ZONE = 128

HEAD = re.compile(r"^[0-9a-f]+ <(.+)>:$")
LINE = re.compile(r"^ *([0-9a-f]+):\t(\S+) *(.*)$")
NAME = re.compile(r"R_X86_64_PLT32\t(?:\.text\.)?(.+)-0x4$")


def functions(archive):
    """name -> [[address, mnemonic, operands, relocated name or None]]"""
    listing = subprocess.run(["objdump", "-dr", "--no-show-raw-insn", archive], capture_output=True, text=True, check=True)
    found, body = {}, None
    for line in listing.stdout.splitlines():
        if m := HEAD.match(line):
            body = found.setdefault(m[1], [])
        elif m := NAME.search(line):
            body[-1][3] = m[1]
        elif (m := LINE.match(line)) and "R_X86_64" not in line:
            body.append([int(m[1], 16), m[2], m[3], None])
    return found


def writable(archive):
    """The sections that a linker lays into memory which may be written, if anything stands in them."""
    listing = subprocess.run(["objdump", "-h", archive], capture_output=True, text=True, check=True)
    rows = re.findall(r"^ *\d+ (\S+) +([0-9a-f]+) .*\n +(\S.*)$", listing.stdout, re.M)
    return [name for name, size, flags in rows if int(size, 16) and "ALLOC" in flags and "READONLY" not in flags]


def moved(mnemonic, operands):
    """By how much an instruction lowers the stack pointer; None where that cannot be told."""
    if mnemonic == "push":
        return 8
    if mnemonic == "pop":
        return -8
    if not re.search(r",%rsp$", operands):
        return 0
    if m := re.match(r"\$(-?0x[0-9a-f]+),%rsp$", operands):
        if mnemonic in ("sub", "add"):
            return int(m[1], 16) * (1 if mnemonic == "sub" else -1)
    return None


def frame(name, body):
    """The deepest place of the function itself, and the depth at each call, by walking every path."""
    place = {address: i for i, (address, *_) in enumerate(body)}
    deepest, calls, seen, work, later, probed = 0, [], {}, [(0, 0)], None, None
    while work or later is not None:
        if not work:
            # The targets of a jump through a table: whatever no other path has reached.
            work = [(i, later) for i in range(len(body)) if i not in seen][:1]
            if not work:
                break
        i, depth = work.pop()
        while i < len(body) and i not in seen:
            seen[i] = depth
            _, mnemonic, operands, callee = body[i]
            lower = moved(mnemonic, operands)
            if m := re.match(r"\$0x([0-9a-f]+),%r11$", operands):
                probed = depth + int(m[1], 16)  # a loop that touches page after page, until %rsp is %r11
            if (mnemonic, operands) == ("cmp", "%r11,%rsp"):
                lower = probed - depth
            if lower is None:
                sys.exit(f"bound: {name}: cannot follow {mnemonic} {operands}")
            depth += lower
            deepest = max(deepest, depth)
            if m := re.search(r"-0x([0-9a-f]+)\(%rsp", operands):
                if int(m[1], 16) > RED_ZONE:
                    sys.exit(f"bound: {name}: below the red zone: {operands}")
                deepest = max(deepest, depth + int(m[1], 16))
            if mnemonic == "call":
                calls.append((callee or re.search(r"<([^+]+)>", operands)[1], depth))
            elif mnemonic.startswith("j"):
                target = int(operands.split()[0], 16) if not operands.startswith("*") else None
                if callee:
                    calls.append((callee, depth - 8))  # a call in tail position: its return address is ours
                elif target is None:
                    later = depth
                else:
                    work.append((place[target], depth))
                if mnemonic == "jmp":
                    break
            elif mnemonic in ("ret", "ud2"):
                break
            i += 1
    return deepest, calls


def main():
    code = functions(sys.argv[1])
    frames = {name: frame(name, body) for name, body in code.items()}

    def need(name, above=()):
        if name in OUTSIDE:
            return OUTSIDE[name]
        if name in above and name not in LEVELS:
            sys.exit(f"bound: {name} calls itself")
        own, calls = frames[name]
        once = max([own] + [depth + need(callee, above + (name,)) for callee, depth in calls if callee != name]) + 8
        level = max([0] + [depth + 8 for callee, depth in calls if callee == name])
        return once + (LEVELS.get(name, 1) - 1) * level

    header = open(sys.argv[2], encoding="utf-8").read()
    stale = []
    for name in sorted(n for n in frames if n.startswith("kemroul_")):
        print(f"{name:20} {need(name):7}")
        if not re.search(rf"\b{name} {need(name):,}\s", header):
            stale.append(name)
    if stale:
        sys.exit(f"bound: {sys.argv[2]} states another figure for {', '.join(stale)}")
    if sections := writable(sys.argv[1]):
        sys.exit(f"bound: the archive has writable data: {', '.join(sections)}")


main()
