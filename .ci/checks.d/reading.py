#!/usr/bin/env python3
""".ci/checks.d/reading.py [--write]: docs/READING.md names every definition that matters.

These are those that the contract of the top call imports, and the contracts of the laws over all
runs, and what these import in turn, each with its number of lines.

With --write the numbers are written there; a row for a file that is missing has to be written by
hand.
"""

import glob
import os
import re
import sys

PAGE = "docs/READING.md"
TOP_CALL = "crates/hx_command/src/top.rt"
LAWS = "# laws over all runs"
IMPORT = re.compile(r"(?:pub |ghost )*use Rattle\.(\w+)\.specs\.([\w.]*\w)")
ROW = re.compile(r"^\| *(\d+) \| `(crates/[^`]*)`", re.M)


def text_of(file):
    with open(file, encoding="utf-8") as it:
        return it.read()


def sources_of_laws():
    """Returns the sources of the crates below the line on laws in crates.txt."""
    section = text_of("crates.txt").partition(f"{LAWS}\n")[2].partition("\n#")[0]
    names = re.findall(r"^\w+", section, re.M)
    return [file for name in names for file in sorted(glob.glob(f"crates/{name}/src/**/*.rt", recursive=True))]


def imports_of(file):
    """Returns the files of definitions of this repository that a file imports."""
    found = [IMPORT.match(line.strip()) for line in text_of(file).split("\n")]
    files = [f"crates/{it[1]}/specs/{it[2].replace('.', '/')}.antt" for it in found if it]
    return [it for it in files if os.path.isfile(it)]


def closure(starts):
    """Returns the files that these import, and what they import in turn."""
    waiting, found = [it for start in starts for it in imports_of(start)], {}
    while waiting:
        file = waiting.pop()
        if file not in found:
            found[file] = imports_of(file)
            waiting += found[file]
    return sorted(found)


def lines_of(file):
    return text_of(file).count("\n")


def faults():
    """Returns what is wrong on the page."""
    rows = {file: int(lines) for lines, file in ROW.findall(text_of(PAGE))}
    laws = sources_of_laws()
    wrong = [] if laws else [f"crates.txt has no crates below '{LAWS}'"]
    wrong += [f"{it} is not in {PAGE}" for it in closure([TOP_CALL, *laws]) if it not in rows]
    for file, lines in rows.items():
        if not os.path.isfile(file):
            wrong += [f"{PAGE} names {file}, which isn't there"]
        elif lines_of(file) != lines:
            wrong += [f"{file} has {lines_of(file)} lines, and in {PAGE} {lines}: {sys.argv[0]} --write puts it right"]
    return wrong


def write():
    """Writes the numbers of lines into the page."""
    page = ROW.sub(lambda row: f"| {lines_of(row[2])} | `{row[2]}`" if os.path.isfile(row[2]) else row[0], text_of(PAGE))
    with open(PAGE, "w", encoding="utf-8") as it:
        it.write(page)


if __name__ == "__main__":
    os.chdir(os.path.dirname(os.path.abspath(__file__)) + "/../..")
    if sys.argv[1:] == ["--write"]:
        write()
    found = faults()
    for it in found:
        print(f"check failed: {it}")
    sys.exit(bool(found))
