#!/usr/bin/env python3
"""Prints the table of limits: the bytes of each box by its limit, and the largest limits with which it fits.

    limits.py DEEPEST_STACK SCRATCH_FILE ARCHIVE CC ..

CC .. is the compiler with its options. Every number is that of box.h's struct compiled at a limit; the script stops if
the formula does not have it, and if a message as long as the limit does not go through the box (box.c).
"""
import subprocess
import sys

SPACES = (32768, 65536, 262144)
LARGEST_LIMIT = 65535
LINKS = (("both links", 1, 1), ("Classic", 1, 0), ("Low Energy", 0, 1))


class Box:
    def __init__(self, flags, stack, scratch, archive, compiler):
        self.flags, self.stack, self.scratch = flags, stack, scratch
        self.compile = [*compiler, "-o", scratch, "bench/memory/box.c", archive]
        first, second = self.compiled(1)[0], self.compiled(2)[0]
        self.times = second - first
        self.fixed = first - self.times

    def compiled(self, limit):
        """The bytes at a limit, the stack's among them: without padding, and with it."""
        flags = {**self.flags, "LIMIT": limit}
        subprocess.run([*self.compile, *(f"-D{name}={value}" for name, value in flags.items())], check=True)
        told = subprocess.run([self.scratch], check=True, text=True, capture_output=True).stdout
        return [self.stack + int(number) for number in told.split()]

    def fits(self, limit, space):
        bare, padded = self.compiled(limit)
        if bare != self.fixed + self.times * limit:
            sys.exit(f"limits.py: {self.flags}: {bare} bytes at {limit}")
        return padded <= space

    def largest(self, space):
        """The limit at which it fits, while at one more it does not."""
        limit = min((space - self.fixed) // self.times, LARGEST_LIMIT)
        while not self.fits(limit, space):
            limit -= 1
        if limit < LARGEST_LIMIT and self.fits(limit + 1, space):
            sys.exit(f"limits.py: {self.flags}: fits at {limit + 1}")
        return limit


def main(deepest, scratch, archive, *compiler):
    print("| box | frames written | message buffer | bytes |" + "".join(f" largest limit in {space:,} |" for space in SPACES))
    print("|---|---|---|---|" + "--:|" * len(SPACES))
    for name, classic, low_energy in LINKS:
        for by_parts in range(1 + classic):
            for message in range(2):
                flags = {"CLASSIC": classic, "LOW_ENERGY": low_energy, "BY_PARTS": by_parts, "MESSAGE": message}
                box = Box(flags, int(deepest), scratch, archive, compiler)
                frames = ("whole", "by parts")[by_parts] if classic else ""
                limits = "".join(f" {box.largest(space):,} |" for space in SPACES)
                print(f"| {name} | {frames} | {('none', 'one')[message]} | {box.fixed:,} + {box.times} * limit |{limits}")


if __name__ == "__main__":
    main(*sys.argv[1:])
