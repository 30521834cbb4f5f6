#!/usr/bin/env python3
"""bench/gate.py [COMMAND ..]: runs the gate, or the command, and tells what it cost.

Every second the processor time of each check below the command is read off /proc, so that what a
check takes in its last second is missing; the last line has all that the command took, as the
system counted it. For each crate it prints the seconds of its proof, of the proof of its tests, and
of its must-fail edits with the proof that they begin with, and then the dearest edits. A crate that
an earlier run on the machine passed costs nothing: remove what the toolchain kept, or give `rt ci
--anew`, to measure from nothing. Run it with nothing else running.

Processor seconds are longer on a machine that others slow down. So every ten seconds it also takes
the time of a fixed loop, and prints how these swung: the same gate costs the more the longer the
loop took.
"""

import collections
import itertools
import os
import re
import resource
import statistics
import subprocess
import sys
import time

TICKS = os.sysconf("SC_CLK_TCK")
KINDS = ("proof", "edits", "tests")


def read(path):
    """Returns a file's text, or nothing of a process that has ended."""
    try:
        with open(path, encoding="utf-8", errors="replace") as file:
            return file.read()
    except OSError:
        return ""


def processes():
    """Returns each process with its parent, its name, its start and its processor seconds.

    These have the seconds of those that it started, once they have ended.
    """
    found = {}
    for pid in filter(str.isdigit, os.listdir("/proc")):
        head, _, rest = read(f"/proc/{pid}/stat").rpartition(")")
        fields = rest.split()
        if len(fields) > 19:
            seconds = sum(map(int, fields[11:15])) / TICKS
            found[int(pid)] = int(fields[1]), head.partition("(")[2], fields[19], seconds
    return found


def is_below(found, pid, top):
    """Whether a process stands below another."""
    while pid in found and pid != top:
        pid = found[pid][0]
    return pid == top


def folder_of(pid):
    """Returns the folder that a process works in, or nothing of one that has ended."""
    try:
        return os.path.basename(os.readlink(f"/proc/{pid}/cwd"))
    except OSError:
        return ""


def kind_of(pid):
    """Returns a check's crate, what it checks, and the number of its edit, if it tries one.

    Of several edits of a crate each begins with what the first check of them kept, and has its
    number there; an only one is tried from nothing.
    """
    words = read(f"/proc/{pid}/cmdline").replace("\0", " ")
    crate = re.search(r"--crate-name (\w+)", words)
    if not crate:
        return None
    if "--test" in words:
        return crate[1], "tests", None
    if not folder_of(pid).startswith("rt-edit-"):
        return crate[1], "proof", None
    edit = re.search(r"--incremental \S*rt-edits-\S*/(\w+)(?: |$)", words)
    if not edit:
        return crate[1], "edits", 0
    return crate[1], "edits", int(edit[1]) if edit[1].isdigit() else None


def check_above(found, pid):
    """Returns the check that a process of the prover is part of: some start others."""
    while found[pid][0] in found and found[found[pid][0]][1].startswith("rattle"):
        pid = found[pid][0]
    return pid


def edit_named(crate, number):
    """Returns the name of a crate's edit: they are tried in the order of their names."""
    names = sorted(name for name in os.listdir(f"crates/{crate}/must-fail") if name.endswith(".edit"))
    return names[number].removesuffix(".edit") if number < len(names) else str(number)


def print_edits(known, spent, most=30):
    """Prints the edits that took the longest."""
    tried = collections.Counter()
    for check, seconds in spent.items():
        crate, _, number = known[check]
        if number is not None:
            tried[crate, number] += seconds
    print(f"the dearest of {len(tried)} edits")
    for (crate, number), seconds in tried.most_common(most):
        print(f"{crate:<20}{seconds:>8.0f}  {edit_named(crate, number)}")


def print_table(table):
    """Prints the seconds of each crate as docs/GATE.md has them, and the minutes of all."""
    print("| crate | proof | edits | tests |\n|---|---|---|---|")
    for crate, of in sorted(table.items(), key=lambda it: -sum(it[1].values())):
        cells = (f"{of[kind]:.0f}" if of[kind] else "" for kind in KINDS)
        print(f"| `{crate}` | {' | '.join(cells)} |")
    sums = (f"{sum(of[kind] for of in table.values()) / 60:.1f}" for kind in KINDS)
    print(f"| minutes | {' | '.join(sums)} |")


def sample(top, known, spent):
    """Notes what each check below the command has taken by now."""
    found = processes()
    for pid, (_, name, start, seconds) in found.items():
        if name.startswith("rattle") and is_below(found, pid, top) and check_above(found, pid) == pid:
            check = pid, start
            if check not in known:
                known[check] = kind_of(pid)
            if known[check]:
                spent[check] = seconds


def loop():
    """Returns the processor milliseconds of a fixed loop."""
    start, total = time.process_time(), 0
    for number in range(1_000_000):
        total += number
    return (time.process_time() - start) * 1000


def main(words):
    known, spent, loops = {}, {}, []
    with subprocess.Popen(words or ["bash", ".ci/run"]) as command:
        for second in itertools.count():
            if command.poll() is not None:
                break
            sample(command.pid, known, spent)
            if second % 10 == 0:
                loops.append(loop())
            time.sleep(1)
    table = collections.defaultdict(collections.Counter)
    for check, seconds in spent.items():
        crate, kind, _ = known[check]
        table[crate][kind] += seconds
    print_table(table)
    print_edits(known, spent)
    print(f"a fixed loop took {min(loops):.0f} to {max(loops):.0f} ms, {statistics.median(loops):.0f} as a rule")
    took = resource.getrusage(resource.RUSAGE_CHILDREN)
    print(f"in all {(took.ru_utime + took.ru_stime) / 60:.1f} processor minutes")
    return command.returncode


if __name__ == "__main__":
    sys.exit(main(sys.argv[1:]))
