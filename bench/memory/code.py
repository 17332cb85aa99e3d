#!/usr/bin/env python3
"""Prints the tables of code sizes: each function of the archive, and what a linker keeps of it.

    code.py ARCHIVE SCRATCH_FILE
"""
import collections
import subprocess
import sys

GROUPS = {
    "Classic": ("extractor", "frame", "next"),
    "Low Energy": ("receiver", "packet", "ack"),
    "captures": ("capture", "report"),
    "control messages": ("envelope", "response", "information", "features"),
    "replies": ("reply",),
    "firmware messages and fields": ("segment", "apply", "field"),
    "outbox": ("outbox",),
    "text": ("text",),
}


def run(*words):
    return subprocess.run(words, check=True, text=True, capture_output=True).stdout


def sections(file):
    """The bytes of each section; of one that several objects have, those of all together."""
    sizes = collections.Counter()
    for row in (line.split() for line in run("size", "-A", file).splitlines()):
        if len(row) == 3 and row[1].isdigit():
            sizes[row[0]] += int(row[1])
    return sizes


def total(sizes, kind):
    return sum(size for name, size in sizes.items() if name == kind or name.startswith(kind + "."))


def kept(archive, scratch, names):
    """Code and constants that stay when only these functions are called."""
    roots = [word for name in names for word in ("-u", name)]
    run("ld", "--gc-sections", "--defsym=memset=0", "-e", names[0], *roots, "-o", scratch, archive)
    sizes = sections(scratch)
    return total(sizes, ".text"), total(sizes, ".rodata")


def print_functions(archive, scratch, exported):
    sizes = sections(archive)
    print("| function | code | constants | linked alone, with all that it calls |")
    print("|---|--:|--:|--:|")
    for section in sorted(sizes):
        name = section.removeprefix(".text.")
        if name == section:
            continue
        constants = sizes.get(".rodata." + name, 0) + sizes.get(".rodata..Lswitch.table." + name, 0)
        alone = f"{sum(kept(archive, scratch, [name])):,}" if name in exported else "not exported"
        print(f"| `{name}` | {sizes[section]:,} | {constants:,} | {alone} |")
    shared = total(sizes, ".rodata.cst16") + total(sizes, ".rodata.cst4") + total(sizes, ".rodata.cst8")
    print(f"| constants that several share | | {shared:,} | |")
    print(f"| **in all** | {total(sizes, '.text'):,} | {total(sizes, '.rodata'):,} | |")
    variables = total(sizes, ".data") + total(sizes, ".bss")
    print("\nA function that two objects have stands here once, with the bytes of both.")
    print(f"\nVariables of the library's own (`.data`, `.bss`): {variables} bytes.\n")


def print_kept(archive, scratch, group_of):
    print("| a box that calls | code | constants | together |")
    print("|---|--:|--:|--:|")
    for parts in (["Classic"], ["Classic", "outbox"], ["Low Energy"], ["Low Energy", "control messages"],
                  ["Low Energy", "control messages", "outbox"], list(GROUPS)):
        text, constants = kept(archive, scratch, [name for name in group_of if group_of[name] in parts])
        print(f"| {', '.join(parts)} | {text:,} | {constants:,} | {text + constants:,} |")


def main(archive, scratch):
    symbols = (line.split() for line in run("nm", "--defined-only", archive).splitlines())
    exported = [row[2] for row in symbols if len(row) == 3 and row[1] == "T"]
    group_of = {name: group for name in exported for group, words in GROUPS.items() if name.split("_")[1] in words}
    # The version is in every box, and in no group.
    if len(group_of) + 1 != len(exported):
        sys.exit("code.py: a function belongs to no group")
    print_functions(archive, scratch, exported)
    print_kept(archive, scratch, group_of)


if __name__ == "__main__":
    main(*sys.argv[1:])
