#!/usr/bin/env python3
"""tools/offer.py [--wait]: offers the libraries that `rt ci` keeps on this machine to the checks of other checkouts.

`rt ci` keeps what it proved for the gate alone: to a check its libraries have no stamp, so `rt check` in a copy
proves all crates below anew, for half an hour. Run this in a checkout of its own, whose text is the one that `rt ci`
proves in another: it links each kept library here, stamps it, and notes where it lies. From then on `rt check` in any
checkout takes the libraries whose text is the same. With --wait it goes on until there are all. No verdict rests on
what it does: `rt ci` reads its own store.
"""

import functools
import hashlib
import json
import os
import shutil
import sys
import time

from kit import crates, rt, rtlib, stamp


@functools.lru_cache(maxsize=None)
def library_sum(crate):
    """Returns the sum of a library's files, as `Kept.is_built` notes it, once the library lies here."""
    top = f"rlib/{crate.name}.rlib"
    found = [f"{at}/{name}" for at, _, names in os.walk(f"{crate.folder}/out/{top}") for name in names]
    files = sorted(os.path.relpath(it, f"{crate.folder}/out") for it in found)
    sums = [(it, rtlib.sum_of(f"{crate.folder}/out/{it}")) for it in files]
    return hashlib.sha256(repr(sums).encode()).hexdigest()


def key(crate):
    """Returns the name under which the crate's proof over the libraries that lie here is kept, as `Kept.key` does."""
    below = [(it.name, library_sum(it)) for it in crate.below()]
    return hashlib.sha256(repr((rt.own_sum(crate), below)).encode()).hexdigest()


def note(crate):
    """Notes where the library lies, for the checks of other checkouts."""
    os.makedirs(rt.WORK, 0o700, exist_ok=True)
    place = f"{rt.WORK}/{crate.name}.{hashlib.sha256(crate.folder.encode()).hexdigest()[:16]}"
    with open(f"{place}.new", "w", encoding="utf-8") as it:
        json.dump({"folder": crate.folder, "stamp": stamp(crate)}, it)
    os.replace(f"{place}.new", place)


def offer(crate):
    """Links the crate's kept library here with its stamp, and returns whether there was one of this text."""
    kept = f"{rt.STORE}/proof-{crate.name}-{key(crate)}"
    if not os.path.isdir(kept):
        return False
    with open(f"{kept}/made.json", encoding="utf-8") as it:
        files = json.load(it)["files"]
    out = f"{crate.folder}/out"
    shutil.rmtree(f"{out}/rlib", ignore_errors=True)
    for number, (path, _) in enumerate(files):
        os.makedirs(os.path.dirname(f"{out}/{path}"), exist_ok=True)
        rt.link_or_copy(f"{kept}/{number}", f"{out}/{path}")
    with open(f"{out}/rlib/stamp", "w", encoding="utf-8") as it:
        it.write(stamp(crate))
    note(crate)
    return True


def offer_next(libraries, offered):
    """Offers each library that is kept over those that are offered, and returns whether there was one."""
    new = [
        name
        for name, crate in libraries.items()
        if name not in offered and all(it.name in offered for it in crate.deps) and offer(crate)
    ]
    offered.update(new)
    for name in new:
        print(f"{time.strftime('%H:%M:%S')} {name}", flush=True)
    return bool(new)


def main(words):
    libraries = {name: it for name, it in crates().items() if it.makes_rlib()}
    offered = set()
    while len(offered) < len(libraries):
        if offer_next(libraries, offered):
            continue
        if "--wait" not in words:
            break
        time.sleep(20)
    print(f"{len(offered)} of {len(libraries)} libraries are offered")


if __name__ == "__main__":
    main(sys.argv[1:])
