#!/usr/bin/env python3
"""Prints the table of stacks: what the archive's machine code needs, beside what was measured.

    stack.py ARCHIVE MEASURED DEEPEST

MEASURED has a line for each function: name, bytes, calls, answers. DEEPEST is a file that gets the largest bound.
The walk knows push, pop, and add and sub of a number on %rsp. It stops at anything else that sets %rsp, at a call by
pointer, at a recursion, where two ways meet at different depths, and where a return finds more than its address.
"""
import re
import subprocess
import sys

WORD = 8
# The one function that the archive takes from the C library. It takes no stack but its return address on x86-64.
LIBRARY = "memset"
ENDS = ("ret", "jmp", "ud2")
UNKNOWN = ("leave", "enter", "pushf", "popf", "notrack", "bnd")
OBJECT = re.compile(r": +file format ")
LABEL = re.compile(r"^[0-9a-f]+ <(.+)>:$")
LINE = re.compile(r"^ *([0-9a-f]+):\t(\S+)(?: +([^#<]*))?")
CALLEE = re.compile(r"R_X86_64_PLT32\s+(?:\.text\.)?(.+)-0x4$")
ON_STACK = re.compile(r"(-?)(?:0x([0-9a-f]+))?\(%rsp")


def stop(words):
    sys.exit("stack.py: " + words)


class Instruction:
    def __init__(self, place, name, operands):
        self.place, self.name, self.operands, self.callee = place, name, operands.strip(), None

    def jumps(self):
        return self.name.startswith("j")

    def target(self):
        """The place that a jump names, None where it goes to another function or through a table."""
        return None if self.callee or self.operands.startswith("*") else int(self.operands, 16)

    def moves(self):
        """By how much the stack grows."""
        if self.name == "push":
            return WORD
        if self.name == "pop":
            return -WORD
        number = re.fullmatch(r"\$0x([0-9a-f]+),%rsp", self.operands)
        if number and self.name in ("sub", "add"):
            value = int(number.group(1), 16)
            value -= (value >> 63) << 64
            return value if self.name == "sub" else -value
        sets = self.operands.endswith(",%rsp") and self.name not in ("cmp", "test")
        if sets or self.name in UNKNOWN or (self.name == "call" and not self.callee):
            stop(f"unknown: {self.name} {self.operands}")
        return 0


def functions(archive):
    """The functions of each of the archive's objects: two objects may have one of the same name, each for itself."""
    listing = subprocess.run(["objdump", "-dr", "--no-show-raw-insn", archive], check=True, text=True,
                             capture_output=True).stdout
    objects, found, code = [], {}, None
    for line in listing.splitlines():
        if OBJECT.search(line):
            found = {}
            objects.append(found)
        label, instruction, callee = LABEL.match(line), LINE.match(line), CALLEE.search(line)
        if label:
            if label.group(1) in found:
                stop("two functions " + label.group(1))
            code = found[label.group(1)] = []
        elif callee:
            code[-1].callee = callee.group(1)
        elif instruction and "R_X86_64" not in line:
            code.append(Instruction(int(instruction.group(1), 16), instruction.group(2), instruction.group(3) or ""))
    return objects


def depths(name, code):
    """The bytes from the return address down before each instruction. A table's jumps are all at one depth, which
    the places have that no other way reaches."""
    at, index = {}, {instruction.place: i for i, instruction in enumerate(code)}

    def flow(start, depth):
        waiting = [(start, depth)]
        while waiting:
            i, depth = waiting.pop()
            if i in at:
                if at[i] != depth:
                    stop(f"{name}: two depths at {code[i].place:x}")
                continue
            at[i], step = depth, code[i]
            if step.name == "ret" and depth != WORD:
                stop(f"{name}: returns at depth {depth}")
            if step.jumps() and step.target() is not None:
                waiting.append((index[step.target()], depth))
            if step.name not in ENDS:
                waiting.append((i + 1, depth + step.moves()))

    flow(0, WORD)
    tables = {at[i] for i in at if code[i].name == "jmp" and code[i].operands.startswith("*")}
    for i, step in enumerate(code):
        if i not in at and not re.match(r"nop|data16|cs|xchg|int3", step.name):
            if len(tables) != 1:
                stop(f"{name}: no way to {step.place:x}")
            flow(i, min(tables))
    return at


def bound(name, code_of, open_calls=()):
    """The deepest stack in bytes, return address included, the calls that lead there, and the arguments' bytes."""
    if name in open_calls:
        stop("recursion in " + name)
    if name == LIBRARY:
        return WORD, [name], 0
    if name not in code_of:
        stop(name + " is not in the archive")
    deepest, path, arguments = WORD, [name], 0
    for i, depth in depths(name, code_of[name]).items():
        step, below = code_of[name][i], [(depth + code_of[name][i].moves(), [name])]
        for sign, number in ON_STACK.findall(step.operands):
            offset = int(number or "0", 16)
            if sign:
                below.append((depth + offset, [name]))
            elif offset >= depth:
                arguments = max(arguments, offset - depth + WORD)
        if step.callee:
            inner, way, _ = bound(step.callee, code_of, (*open_calls, name))
            below.append((depth + inner - (WORD if step.jumps() else 0), [name, *way]))
        for bytes_below, way in below:
            if bytes_below > deepest:
                deepest, path = bytes_below, way
    return deepest, path, arguments


def main(archive, measured, deepest_file):
    home, deepest = {name: found for found in functions(archive) for name in found if re.match("pito_(?!version_)", name)}, 0
    with open(measured, encoding="utf-8") as lines:
        rows = [line.split() for line in lines]
    if {row[0] for row in rows} != set(home):
        stop("not every function was measured")
    print("| function | by the code | measured | arguments in it | deepest through | calls | answers |")
    print("|---|--:|--:|--:|---|--:|---|")
    for name, most, calls, *answers in rows:
        inside, path, arguments = bound(name, home[name])
        if int(most) > inside + arguments:
            stop(f"{name}: measured {most}, above the bound {inside + arguments}")
        deepest = max(deepest, inside + arguments)
        through = ", ".join(f"`{part.split('::')[-1]}`" for part in path[1:])
        print(f"| `{name}` | {inside + arguments:,} | {int(most):,} | {arguments} | {through} | {int(calls):,} |"
              f" {' '.join(answers)} |")
    with open(deepest_file, "w", encoding="utf-8") as out:
        print(deepest, file=out)


if __name__ == "__main__":
    main(*sys.argv[1:])
