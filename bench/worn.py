#!/usr/bin/env python3
"""bench/worn.py [PROGRAM]: wears a session out by 4,081 searches of 256 regions each.

So the session has 1,048,576 entries before its last call has ended. It prints the seconds and the
memory that the program takes until it says so, which is to be within a minute and a gigabyte.
PROGRAM is the proved one where it isn't said.
"""

import os
import subprocess
import sys
import tempfile
import time

from proved import program_of

SCRIPT = b"hx 1\nspace w\nkey k 256\nservers 1\ntolerate 0\nsession 1\n" + b"search\n" * 4081


def main(words):
    program = program_of(words[0] if words else None)
    with tempfile.TemporaryFile() as text:
        text.write(SCRIPT)
        text.seek(0)
        began = time.perf_counter()
        with subprocess.Popen([program, "replay"], stdin=text, stdout=subprocess.PIPE, stderr=subprocess.PIPE) as worn:
            out, told = worn.stdout.read(), worn.stderr.read()
            _, ended, used = os.wait4(worn.pid, 0)
            worn.returncode = status = os.waitstatus_to_exitcode(ended)
        taken = time.perf_counter() - began
    print(f"status {status}, {told.decode().strip()}, {len(out)} bytes written, {taken:.1f} s, {used.ru_maxrss / 1024:.0f} MB")
    return (status, told, out) != (7, b"worn u1\n", b"") or taken >= 60 or used.ru_maxrss >= 1 << 20


if __name__ == "__main__":
    sys.exit(main(sys.argv[1:]))
