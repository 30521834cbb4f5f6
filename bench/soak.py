#!/usr/bin/env python3
"""soak.py SEED CALLS: the summary of a soak as its calls make it one after another on one map,
reckoned apart from the program. The files of cases/soak were made by it.
"""
import sys

MASK = (1 << 64) - 1


def draws(state):
    """SplitMix64."""
    while True:
        state = (state + 0x9E3779B97F4A7C15) & MASK
        z = ((state ^ (state >> 30)) * 0xBF58476D1CE4E5B9) & MASK
        z = ((z ^ (z >> 27)) * 0x94D049BB133111EB) & MASK
        yield z ^ (z >> 31)


def fnv(data):
    """FNV-1a of 64 bits."""
    h = 0xCBF29CE484222325
    for byte in data:
        h = ((h ^ byte) * 0x100000001B3) & MASK
    return h


def summary(seed, calls):
    objects = {}
    counts = dict.fromkeys(("done", "notfound", "cmpfail", "found", "searches"), 0)
    draw = draws(seed)
    for i in range(calls):
        r = next(draw)
        key = f"s{i % 4 + 1}k{r % 64}"
        color, size, kind = f"c{(r >> 16) % 4}", (r >> 24) % 1000, (r >> 8) % 8
        old = objects.get(key)
        if kind == 7:
            answer = "searches"
        elif kind <= 3:
            objects[key], answer = (color, size), "done"
        elif old is None:
            answer = "notfound"
        elif kind == 4:
            answer = "found"
        elif kind == 5:
            answer = "done"
            del objects[key]
        elif old[0] == color:
            objects[key], answer = (color, size), "done"
        else:
            answer = "cmpfail"
        counts[answer] += 1
    lines = "".join(f'"{key}" color="{c}" size={s}\n' for key, (c, s) in sorted(objects.items()))
    told = "".join(f"{word} {count}\n" for word, count in counts.items())
    return f"soak 1\ncalls {calls}\n{told}objects {len(objects)}\ndigest {fnv(lines.encode()):016x}\nend\n"


if __name__ == "__main__":
    print(summary(int(sys.argv[1]), int(sys.argv[2])), end="")
