"""The tables that bench/run prints, read again."""


def cells(line):
    return [cell.strip() for cell in line.strip().strip("|").split("|")]


def number(text):
    return float(text.rstrip(" *").replace(",", ""))


def rows(lines):
    """Each row that has C beside it: its name with its group's, and its cells by their heads."""
    group, head = "", []
    for line in lines:
        if line.startswith("### "):
            group, head = line[4:].strip(), []
        elif line.startswith("| input "):
            head = cells(line)
        elif line.startswith("| ") and "C, gcc" in head:
            row = dict(zip(head, cells(line)))
            yield f"{group}: {row['input']}", row
