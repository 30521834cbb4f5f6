#!/usr/bin/env python3
""".ci/checks.d/faults.py: each read, each write and each allocation of a command may fail.

One fails in each run. After a fault of reading nothing is written, after one of writing all bytes
before it. A run that is refused memory writes the whole answer or nothing. A C compiler is needed,
for the functions that fail (bench/failing_io.c and bench/failing_malloc.c).
"""

import concurrent.futures
import os
import shutil
import subprocess
import sys
import tempfile

PROGRAM = "crates/hx_tool/out/hx_tool"

# The words of each command that reads, its text and its answer.
ANSWERS = [
    ("replay", "cases/run/put_and_get.hx", "cases/replay/put_and_get.report"),
    ("replay", "cases/run/two_spaces.hx", None),
    ("run --workers 1", "cases/run/put_and_get.hx", "cases/run/put_and_get.report"),
    ("run --workers 1", "cases/run/two_spaces.hx", "cases/run/two_spaces.report"),
    ("share --workers 1", "cases/run/put_and_get.hx", "cases/replay/put_and_get.report"),
    ("plan", "cases/plan/searches.hx", "cases/plan/searches.plan"),
    ("plan", "cases/run/two_spaces.hx", None),
    ("audit", "cases/replay/put_and_get.report", None),
    ("audit", "cases/run/two_spaces.report", None),
    ("soak 0 1 --workers 1", None, "cases/soak/0_1.summary"),
]
faults = []


def bytes_of(name):
    with open(name, "rb") as it:
        return it.read()


def ended(words, text, preload="", **more):
    """Runs the program, and returns its status, what it wrote and what it told."""
    environment = {**os.environ, "LD_PRELOAD": preload, **more}
    with open(text or ".ci/common.sh", "rb") as source:
        command = [PROGRAM, *words.split()]
        made = subprocess.run(
            command, stdin=source, capture_output=True, env=environment, timeout=60, check=False
        )
    return made.returncode, made.stdout, made.stderr


def fail(words, text, answer, work):
    """Yields each run with its fault, and the ways in which it may end."""
    reads = 0 if text is None else len(bytes_of(text)) + 1
    streams, memory = f"{work}/failing_io.so", f"{work}/failing_malloc.so"
    for number in range(1, reads + 1):
        yield words, text, streams, {"FAIL_READ_AT": str(number)}, [(4, b"", b"read fault\n")]
    for number in range(len(answer)):
        ways = [(5, answer[:number], b"write fault\n")]
        yield words, text, streams, {"FAIL_WRITE_AT": str(number + 1)}, ways
    # Of a soak no read fails, since there is none.
    beyond = {"FAIL_READ_AT": str(reads + 1), "FAIL_WRITE_AT": str(len(answer) + 1)}
    yield words, text, streams, beyond, [(0, answer, b"")]
    for number in range(1, allocations(words, text, work) + 1):
        ways = [(0, answer, b""), (6, b"", b"no memory\n")]
        yield words, text, memory, {"FAIL_AT": str(number)}, ways


def allocations(words, text, work):
    """Returns how many allocations a run asks for."""
    ended(words, text, f"{work}/failing_malloc.so", COUNT_TO=f"{work}/count")
    return int(bytes_of(f"{work}/count"))


def judge(run):
    words, text, preload, more, ways = run
    told = ended(words, text, preload, **more)
    if told not in ways:
        faults.append(f"hx {words} <{text} with {more} ends with {told}")


def main():
    if not os.access(PROGRAM, os.X_OK):
        print(f"check failed: {PROGRAM} is not built: .ci/run builds it once all is proved")
        return 1
    if not shutil.which("cc"):
        print("skipped: no C compiler (.ci/checks.d/faults.py)")
        return 0
    with tempfile.TemporaryDirectory() as work:
        for name in "failing_io", "failing_malloc":
            made = f"cc -shared -fPIC -O2 -o {work}/{name}.so bench/{name}.c -ldl"
            subprocess.run(made.split(), check=True)
        runs = []
        for words, text, wanted in ANSWERS:
            told = ended(words, text)
            if told[0] or told[2] or (wanted and told[1] != bytes_of(wanted)):
                faults.append(f"hx {words} <{text} ends with {told}")
            runs += fail(words, text, told[1], work)
        with concurrent.futures.ThreadPoolExecutor(os.cpu_count()) as pool:
            list(pool.map(judge, runs))
        # Posts are copied a second time only where a fate may repeat: here by two actors.
        once = allocations("run --workers 1 --lose 1000000", ANSWERS[0][1], work)
        twice = allocations("run --workers 1 --repeat 1000000", ANSWERS[0][1], work)
        if twice != once + 2:
            faults.append(f"a run makes {once} allocations, and {twice} where its fate may repeat")
    for fault in faults[:5]:
        print(f"check failed: {fault}")
    return bool(faults)


sys.exit(main())
