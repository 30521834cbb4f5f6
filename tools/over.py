#!/usr/bin/env python3
"""tools/over.py CRATE [WORD ..]: checks a crate over proved libraries where there are, and over sources where there are none.

`rt check` first proves each crate below that isn't proved yet. Here such a crate's sources stand for it: its
definitions and contracts are read and its bodies aren't proved, so that a crate can be proved while those below it
still are. The words are those of `rattle check`, as `--only MODULE::FUNCTION` or `--jobs 1`. What it shows is no verdict.
"""

import os
import sys

from kit import crates, rtlib, stamp


def is_proved(crate):
    """Whether the crate's library lies in this checkout, of this text."""
    return os.path.isdir(crate.rlib) and rtlib.text_of(f"{crate.folder}/out/rlib/stamp") == stamp(crate)


def words_for(crate):
    """Returns what the check of a crate is told of those below it and of the kit's."""
    below = crate.below()
    kits = sorted({name for it in [crate, *below] for name in it.of_kit if name != "std"} | {"core"})
    words = ["--extern", f"std={rtlib.KIT}/rlibs/std.rlib", "-L", f"dependency={rtlib.KIT}/rlibs"]
    for name in kits:
        words += ["--extern", f"{name}={rtlib.KIT}/rlibs/{name}.rlib"]
    proved = set()
    for it in below:
        if is_proved(it) and all(dep.name in proved for dep in it.deps):
            proved.add(it.name)
            words += ["--extern", f"{it.name}={it.rlib}", "-L", f"dependency={os.path.dirname(it.rlib)}"]
        else:
            needs = ["core", "std", *(name for name in it.of_kit if name not in ("core", "std")), *(dep.name for dep in it.deps)]
            words += ["--lib", f"{it.name}:{','.join(needs)}={it.folder}/src/lib.rt"]
    print("over sources:", " ".join(it.name for it in below if it.name not in proved) or "none", file=sys.stderr)
    return words


def main(name, words):
    crate = crates()[name]
    os.chdir(crate.folder)
    kept = f"{crate.folder}/out/over"
    os.makedirs(kept, exist_ok=True)
    logic = ["--antt-project", f"{rtlib.KIT}/rattle/logic/antt-project.json", "--logic-built", f"{rtlib.KIT}/logic_built"]
    root = "src/main.rt" if crate.is_program else "src/lib.rt"
    told = ["check", "--crate-name", name, root, *words_for(crate), *logic, "--links", f"{name}=", "--incremental", kept, *words]
    os.execv(f"{rtlib.KIT}/bin/rattle", ["rattle", *told])


if __name__ == "__main__":
    main(sys.argv[1], sys.argv[2:])
