#!/usr/bin/env python3
"""bench/wrong.py [CRATE ..] [--only NAME] [--jobs N]: tries wrong bodies that the gate leaves out.

Each edit of wrong/CRATE/, of every crate where none is named, turns the meaning of a function, so
that the crate's contracts have to refuse it. The edits of a crate are put into must-fail/ in a copy
of the tree, `rt must-fail` tries them there, and of each is printed where it was refused, or that
it was let through, or that it is bad: it can't be applied, compiled or read. The status is 1 where
one wasn't refused.

A crate is proved once, over what earlier checks on the machine kept, and each of its edits takes
about half a minute of a processor more.

--only NAME  tries the edits of this name alone
--jobs N     tries N of them at a time; where it isn't said, one for each processor, as many as memory holds
"""

import argparse
import os
import pathlib
import re
import shutil
import subprocess
import sys
import tempfile

TOP = pathlib.Path(__file__).resolve().parent.parent

# What `rt must-fail` says of an edit.
VERDICT = re.compile(r"rt: must-fail \w+/(\w+)\.edit: (refused, as it must be|NOT REFUSED|BAD EDIT|NOT TRIED)(.*)")
VERDICTS = {"NOT REFUSED": "LET THROUGH", "BAD EDIT": "BAD", "NOT TRIED": "NOT TRIED"}


def edits_of(crate, only):
    """Returns the edits of a crate, or of these the one that is asked for."""
    return [it for it in sorted((TOP / "wrong" / crate).glob("*.edit")) if only in (None, it.stem)]


def copy_tree(to):
    """Copies what a check reads, without the gate's own edits."""
    for name in ("crates.txt", "HANDLES"):
        shutil.copy(TOP / name, to)
    shutil.copytree(TOP / "crates", to / "crates", ignore=shutil.ignore_patterns("out", "must-fail"))


def told(verdict, rest):
    """Says in few words what came of an edit, and whether it was refused."""
    if verdict in VERDICTS:
        return f"{VERDICTS[verdict]}{rest}", False
    why, place = re.fullmatch(r"(?: \(only (.*?)[,:)].*?\))?(?:: (.*))?", rest).groups()
    at = re.sub(r"^(?:note: )?(?:\./)?(\S+?:\d+):\d+: (?:error: )?", r" at \1 ", place or "")
    return f"refused{at}" + (f" (only {why})" if why else ""), True


def try_edits(room, crate, edits, jobs):
    """Tries a crate's edits in the copy, prints each, and returns how many weren't refused."""
    must_fail = room / "crates" / crate / "must-fail"
    must_fail.mkdir()
    for edit in edits:
        shutil.copy(edit, must_fail)
    environment = dict(os.environ, RT_JOBS=str(jobs)) if jobs else None
    ran = subprocess.run(["rt", "must-fail", crate], cwd=room, env=environment, capture_output=True, text=True, check=False)
    shutil.rmtree(must_fail)
    verdicts = {name: told(verdict, rest) for name, verdict, rest in VERDICT.findall(ran.stdout)}
    for edit in edits:
        what, _ = verdicts.get(edit.stem, ("NOT TRIED", False))
        print(f"{crate:<12} {edit.stem:<48} {what}", flush=True)
    missed = [it for it in edits if not verdicts.get(it.stem, ("", False))[1]]
    if len(verdicts) < len(edits):
        print(ran.stdout + ran.stderr, file=sys.stderr)
    return len(missed)


def main():
    head, _, rest = __doc__.partition("\n\n")
    words = argparse.ArgumentParser(usage=head.partition(": ")[0], description=rest, formatter_class=argparse.RawDescriptionHelpFormatter)
    words.add_argument("crates", nargs="*", metavar="CRATE")
    words.add_argument("--only", metavar="NAME")
    words.add_argument("--jobs", type=int, metavar="N")
    asked = words.parse_args()
    crates = asked.crates or sorted(it.name for it in (TOP / "wrong").iterdir())
    edits = {crate: edits_of(crate, asked.only) for crate in crates}
    edits = {crate: of for crate, of in edits.items() if of}
    if not edits:
        sys.exit("no such edit")
    with tempfile.TemporaryDirectory(prefix="hx-wrong-") as name:
        room = pathlib.Path(name)
        copy_tree(room)
        missed = sum(try_edits(room, crate, of, asked.jobs) for crate, of in edits.items())
    print(f"{sum(map(len, edits.values()))} tried, {missed} not refused")
    return 1 if missed else 0


if __name__ == "__main__":
    sys.exit(main())
