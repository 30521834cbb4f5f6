#!/usr/bin/env python3
"""Each wrong body still applies.

These are those of the gate, in crates/CRATE/must-fail/, and those on demand, in wrong/CRATE/. It
prints a line for each that doesn't, and for whatever else stands in wrong/, and ends with status 1
where there is one.
"""

import pathlib
import re
import sys

TOP = pathlib.Path(__file__).resolve().parent.parent.parent


def pairs_of(text):
    """Yields an edit's pairs of texts, each with its file: what stands there, and what instead."""
    path = old = None
    for line in text.splitlines():
        if line.startswith("file: "):
            path = line.removeprefix("file: ").strip()
        elif line.startswith("old: "):
            old = line.removeprefix("old: ")
        elif line.startswith("new:"):
            yield path, old, line.removeprefix("new:").removeprefix(" ")
            old = None
        else:
            raise ValueError(f"a line is no file, old or new text: {line[:60]}")


def edited(text, crate):
    """Returns the texts that an edit makes of a crate's files, by their path in the crate."""
    texts, was = {}, {}
    for path, old, new in pairs_of(text):
        if not path or not old:
            raise ValueError("a new text has no file or no old text before it")
        if not path.startswith("src/") or not (crate / path).is_file():
            raise ValueError(f"{path} is no file of the crate's src/")
        if path not in texts:
            texts[path] = was[path] = (crate / path).read_text()
        places = texts[path].count(old)
        if places != 1:
            raise ValueError(f"a text stands in {path} {places} times and not once: {old.strip()[:60]}")
        texts[path] = texts[path].replace(old, new)
    if texts == was:
        raise ValueError("it changes nothing")
    return texts


def faults():
    """Yields each file that is no edit of its crate, and why."""
    names = {}
    files = [*TOP.glob("crates/*/must-fail/*"), *(it for it in TOP.glob("wrong/**/*") if it.is_file())]
    for file in sorted(files):
        crate = TOP / "crates" / file.relative_to(TOP).parts[1]
        try:
            if file.suffix != ".edit" or not re.fullmatch(r"\w+", file.stem) or file.parent.parent.name not in ("wrong", crate.name):
                raise ValueError("it is no edit: it is named wrong/CRATE/NAME.edit")
            if not (crate / "src").is_dir():
                raise ValueError(f"there is no crate {crate.name}")
            edited(file.read_text(), crate)
            twin = names.setdefault((crate.name, file.stem), file)
            if twin != file:
                raise ValueError(f"{twin.relative_to(TOP)} has its name")
        except ValueError as fault:
            yield file.relative_to(TOP), fault


if __name__ == "__main__":
    found = list(faults())
    for file, fault in found:
        print(f"check failed: {file}: {fault}")
    sys.exit(1 if found else 0)
