"""What the benchmarks in Python share: the program that they run."""

import pathlib
import subprocess
import sys

TOP = pathlib.Path(__file__).resolve().parent.parent
sys.dont_write_bytecode = True


def program_of(named):
    """Returns the program that is named, or the proved one, which it proves where it must."""
    if named:
        return named
    subprocess.run([TOP / "hx", "prove"], check=True)
    return str(TOP / "crates/hx_tool/out/hx_tool")
