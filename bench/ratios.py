#!/usr/bin/env python3
"""bench/ratios.py OTHER [RUNS [PROGRAM]]: measures hx beside another program.

The other one, a store written by hand as a yardstick, takes the same words and writes the same
bytes. Both run on the same scripts and in turns. RUNS is 5 where it isn't said, and 0 counts
instructions alone. PROGRAM is the proved one where it isn't said.

A row of the table that it prints has, of hx and of the other: the least times in milliseconds and
their ratio; the median of the ratios of each run to the shorter of the two runs of the other beside
it, which tells more where the machine's speed swings; millions of instructions by valgrind, which
don't swing, and their ratio; the greatest memory in megabytes, and its ratio. Of threads no
instructions are counted, since valgrind runs one at a time. `differs` stands where the bytes aren't
the same; those of `run` may be, by the order of entries, and aren't compared.
"""

import os
import random
import statistics
import subprocess
import sys
import tempfile
import time

from proved import program_of

rng = random.Random(1)
TWO, ONE = ["color 4", "size 4"], ["size 4"]


def head(subspaces, tolerate=1, servers=4):
    """Returns the first lines of a script."""
    return ["hx 1", "space bench", "key k 4", "string color", "int size 0 9999",
            *("subspace " + s for s in subspaces), f"servers {servers}", f"tolerate {tolerate}"]


def script(lines, calls, sessions):
    """Returns a script with these first lines, whose sessions make the calls in turn."""
    for s in range(sessions):
        lines = lines + [f"session {s + 1}"] + calls[s::sessions]
    return "\n".join(lines) + "\n"


def put(keys, color=None):
    return f'put "key{rng.randrange(keys):05d}" color="{color or "c%d" % rng.randrange(16)}" size={rng.randrange(10000)}'


def get(keys):
    return f'get "key{rng.randrange(keys):05d}"'


def search(width):
    low = rng.randrange(10000 - width)
    return f"search size={low}..{low + width}"


def mixed(keys):
    """Returns a call of any kind."""
    kind = rng.randrange(100)
    if kind < 40:
        return put(keys)
    if kind < 60:
        return get(keys)
    if kind < 70:
        return f'del "key{rng.randrange(keys):05d}"'
    if kind < 85:
        return f'cput "key{rng.randrange(keys):05d}" if color="c{rng.randrange(16)}" set size={rng.randrange(10000)}'
    low = rng.randrange(9900)
    return f"search size={low}..{low + 99}"


def calls_of(call, count):
    return [call() for _ in range(count)]


def halves(keys, count=4096):
    """Returns gets and puts in turn."""
    return [put(keys) if i % 2 else get(keys) for i in range(count)]


def of_searches(wide):
    """Yields the loads of searches, of which the first two come behind these puts."""
    yield "256 wide searches of 2,048 keys", script(head(ONE), wide + calls_of(lambda: search(5000), 256), 1)
    yield "1,024 narrow searches of 2,048 keys", script(head(["size 16"]), wide + calls_of(lambda: search(99), 1024), 4)
    colored = [put(8192, f"c{i % 256}") for i in range(8192)]
    equal = calls_of(lambda: f'search color="c{rng.randrange(256)}"', 256)
    yield "256 searches off the axes, 8,192 keys", script(head(ONE), colored + equal, 4)
    yield "512 searches of 256 regions", script(head(["size 256"]), calls_of(lambda: put(512), 512) + [search(9998)] * 512, 2)


def of_long_texts():
    """Returns a script of puts of 4,000 bytes each."""
    lines = ["hx 1", "space long", "key k 4", *(f"string {name}" for name in "abcd"), "subspace a 2", "servers 8", "tolerate 3"]
    return script(lines, [f'put "key{i}" ' + " ".join(f'{n}="{n * 1000}"' for n in "abcd") for i in range(1000)], 4)


def loads():
    """Yields each load: its name, the words of its command, and its script."""
    mix = script(head(TWO), calls_of(lambda: mixed(256), 4096), 4)
    wide = calls_of(lambda: put(2048), 2048)
    yield "puts and gets, 256 keys", ["replay"], script(head(ONE), halves(256), 4)
    yield "calls of all kinds, 256 keys", ["replay"], mix
    yield "the same with its trace", ["replay", "--trace"], mix
    for tolerate in range(3):
        name = f"puts, 1,024 keys, `tolerate {tolerate}`"
        yield name, ["replay"], script(head(TWO, tolerate), calls_of(lambda: put(1024), 4096), 4)
    yield "16,384 puts, `tolerate 1`", ["replay"], script(head(TWO), calls_of(lambda: put(1024), 16384), 4)
    gets = calls_of(lambda: put(256), 256) + calls_of(lambda: get(256), 3840)
    yield "3,840 gets after 256 puts", ["replay"], script(head(ONE), gets, 4)
    yield "puts and gets, 8,192 keys", ["replay"], script(head(ONE), halves(8192), 4)
    yield "puts and gets of one key, 16 sessions", ["replay"], script(head(ONE), halves(1), 16)
    for name, text in of_searches(wide):
        yield name, ["replay"], text
    yield "1,000 puts of 4,000 bytes, `tolerate 3`", ["replay"], of_long_texts()
    yield "reading and planning alone", ["plan"], mix
    for workers in "124":
        text = script(head(TWO), calls_of(lambda: mixed(256), 4096), 16)
        yield f"`run --workers {workers}`, all kinds, 16 sessions", ["run", "--workers", workers], text
    for workers in "124":
        yield f"`soak 7 16384 --workers {workers}`", ["soak", "7", "16384", "--workers", workers], ""


def run(program, words, path, out):
    """Runs the program on a script, and returns the seconds that it took."""
    with open(path, encoding="utf-8") as text:
        began = time.perf_counter()
        subprocess.run([program, *words], stdin=text, stdout=out, check=True)
        return time.perf_counter() - began


def told_by(watch, program, words, path):
    """Returns what a program that watches this one tells on standard error."""
    with open(path, encoding="utf-8") as text:
        watched = subprocess.run([*watch, program, *words], stdin=text, stdout=subprocess.DEVNULL, stderr=subprocess.PIPE,
                                 text=True, check=False)
    return watched.stderr


def memory(program, words, path):
    """Returns megabytes, told by a process that has few: a child counts its parent's."""
    return int(told_by(["/usr/bin/time", "-f", "%M"], program, words, path).split()[-1]) / 1024


def instructions(program, words, path):
    """Returns millions of them, counted by valgrind."""
    watch = ["valgrind", "--tool=callgrind", "--callgrind-out-file=/dev/null"]
    return int(told_by(watch, program, words, path).split("Collected : ")[1].split()[0]) / 1e6


def pair(values, digits):
    ratio = f"{values[0] / values[1]:.2f}" if values[1] else "-"
    return f"{values[0]:.{digits}f}, {values[1]:.{digits}f} | {ratio}"


def times(both, words, path, runs):
    """Returns the cells of the least times, their ratio, and the median of the ratios."""
    best, ratios = [9e9, 9e9], []
    for _ in range(runs):
        taken = []
        for i in (1, 0, 1):
            with open(f"{path}.out{i}", "wb") as out:
                taken.append(run(both[i], words, path, out))
                best[i] = min(best[i], taken[-1])
        ratios.append(taken[1] / min(taken[0], taken[2]))
    return f"{pair([1000 * it for it in best], 1)} | {statistics.median(ratios):.2f}"


def differ(both, words, path):
    """Returns whether the two write other bytes."""
    written = []
    for program in both:
        with open(path, encoding="utf-8") as text:
            written.append(subprocess.run([program, *words], stdin=text, stdout=subprocess.PIPE, check=False).stdout)
    return written[0] != written[1]


def print_row(both, name, words, path, runs):
    """Measures both on a load, and prints its row."""
    threads = "--workers" in words and words[-1] != "1"
    row = [name if words[0] != "replay" else f"`{' '.join(words)}`: {name}"]
    row.append(times(both, words, path, runs) if runs else "- | - | -")
    row.append("- | -" if threads else pair([instructions(it, words, path) for it in both], 1))
    row.append(pair([memory(it, words, path) for it in both], 0))
    differs = "" if words[0] == "run" or not differ(both, words, path) else " differs"
    print(f"| {' | '.join(row)} |{differs}", flush=True)


def main(asked):
    if not asked or len(asked) > 3:
        sys.exit(f"usage: {__doc__.partition(':')[0]}")
    both = [program_of(asked[2] if len(asked) > 2 else None), asked[0]]
    runs = int(asked[1]) if len(asked) > 1 else 5
    print("| words | least times | ratio | median | instructions | ratio | memory | ratio |")
    print("|---|---|---|---|---|---|---|---|")
    with tempfile.TemporaryDirectory() as work:
        path = os.path.join(work, "script")
        for name, words, text in loads():
            with open(path, "w", encoding="utf-8") as out:
                out.write(text)
            print_row(both, name, words, path, runs)


if __name__ == "__main__":
    main(sys.argv[1:])
