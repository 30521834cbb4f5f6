"""The inside of the kit that offer.py and over.py lean on: kit 13f's `rt` and `rtlib.py`. Look there first where another
kit refuses them."""

import hashlib
import importlib.machinery
import importlib.util
import os
import subprocess
import sys

TOP = os.path.dirname(os.path.dirname(os.path.abspath(__file__)))
stamps = {}


def load():
    """Returns the kit's modules `rt` and `rtlib`."""
    folder = os.path.join(os.path.dirname(subprocess.check_output(["rt", "doc"], text=True).strip()), "bin")
    sys.path.insert(0, folder)
    loader = importlib.machinery.SourceFileLoader("rt", os.path.join(folder, "rt"))
    module = importlib.util.module_from_spec(importlib.util.spec_from_loader("rt", loader))
    loader.exec_module(module)
    return module, module.rtlib


rt, rtlib = load()


def crates():
    """Returns the crates of this checkout by name, as crates.txt has them."""
    with open(f"{TOP}/crates.txt", encoding="utf-8") as it:
        names = [line.split(":")[0].split()[0] for line in it if line.strip() and not line.startswith("#")]
    rt.Crate.allowed = rt.handles_of(TOP)
    known = {}
    return {name: rt.Crate(f"{TOP}/crates/{name}", TOP, known, name=name) for name in names}


def stamp(crate):
    """Returns the crate's stamp, as `Crate.stamp` does, which works each one below out anew: that takes for ever here."""
    if crate.name not in stamps:
        total = hashlib.sha256(repr((crate.said, crate.has_c)).encode())
        with open(f"{rtlib.KIT}/WHAT", "rb") as it:
            total.update(it.read())
        for file in rtlib.files_of(crate.folder):
            with open(file, "rb") as it:
                total.update(repr((file.replace(crate.folder, ""), it.read())).encode())
        total.update(repr([stamp(it) for it in crate.deps]).encode())
        stamps[crate.name] = total.hexdigest()
    return stamps[crate.name]
