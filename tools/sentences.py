"""The sentences for the crew: docs/sentences.txt, read. Its head says what the lines are."""
import os
import re

PATH = os.path.join(os.path.dirname(os.path.abspath(__file__)), "..", "docs", "sentences.txt")


def read():
    """The sections in their order: (kind, the numbers or the word, {line: text})."""
    sections = []
    with open(PATH, encoding="utf-8") as file:
        for line in file.read().split("\n"):
            head = re.fullmatch(r"\[(\w+) ([\w ]+)\]", line)
            if head:
                sections.append((head[1], head[2].split(" "), {}))
            elif line and not line.startswith("#"):
                name, text = line.split(": ", 1)
                if name in sections[-1][2]:
                    raise SystemExit(f"sentences: [{sections[-1][0]} {' '.join(sections[-1][1])}] has `{name}` twice")
                sections[-1][2][name] = text
    return sections


def joined(first, second):
    """Two sentences, one behind the other."""
    return first + second if not first or not second or second[0] in ".:;," else f"{first} {second}"


def own(lines, number, name):
    """A line of a section for one of its numbers."""
    return lines.get(f"{name} {number}", lines.get(name, ""))
