#!/usr/bin/env python3
"""bench/hostile.py [SEED] [TEXTS] [OTHER] [--program PROGRAM]: throws texts at the program.

They are valid, broken or hostile, and drawn from the seed, so that a run can be repeated: 2,000 of
seed 1 where nothing else is said. Each text has to be answered: with status 0, or with its one line
on standard error, the status of that line, and nothing written; `replay` and `plan` refuse the same
texts on the same lines, but for steps that can't be taken. Where OTHER names another program of the
same words, it has to end and write the same. The first text that isn't answered so is kept in
hostile.hx.

--program PROGRAM  tries this program in place of the proved one
"""

import argparse
import collections
import random
import re
import subprocess
import sys

from proved import program_of

NAMES = ["a", "b", "name", "genre", "year", "x_1", "if", "set", "A", "a" * 32, "a" * 33, ""]
NUMBERS = ["0", "1", "2", "16", "17", "256", "257", "4096", "-1", "-0", "007", "9223372036854775807",
           "9223372036854775808", "-9223372036854775808", "99999999999999999999", "1.0", "1..2", "2..1", ".."]
TEXTS = ['""', '"a"', '"b"', '"a', 'a"', '"\\"', '"\\\\"', '"\\q"', '"\u00df"', '"' + "t" * 1024 + '"',
         '"' + "t" * 1025 + '"', '"\t"', '"#"']
WORDS = ["hx", "space", "key", "string", "int", "subspace", "servers", "tolerate", "session", "steps", "put", "get",
         "del", "cput", "search", "stop", "add", "deliver", "tick", "halt", "c", "s1", "s0", "u1", "u17", ",", "=", "#"]
HEAD = ["hx 1", "space books", "key name 2", "string genre", "int year 1900 2099", "subspace genre 4", "subspace year 2",
        "servers 4", "tolerate 1"]

# What the program tells on standard error, by its status.
LINES = {3: rb"(line \d+: (token|order|unknown|twice|type|bounds|limit|step)|too large)\n", 6: rb"no memory\n",
         7: rb"worn (c|[su]\d+)\n"}


def call(rng):
    """Returns a call that the space of HEAD takes."""
    kind = rng.randrange(9)
    key = rng.choice(['"a"', '"b"', '"c"', '""', '"\\\\"', '"\u00df"'])
    if kind < 3:
        return f"put {key} genre={rng.choice(TEXTS[:3])} year={rng.choice(['1999', '2000', '-5'])}"
    return [f"get {key}", f"del {key}", f'cput {key} if genre="a" set year={rng.randrange(3000)}',
            "search year=1990..2010", f"stop {rng.randrange(1, 5)}", f"add {rng.randrange(1, 5)} {rng.randrange(8)}"][kind - 3]


def step(rng):
    return rng.choice(["deliver 1.0", f"deliver {rng.randrange(1, 9)}.0", "tick u1", "tick c", f"halt s{rng.randrange(1, 5)}"])


def valid(rng):
    """Returns the lines of a valid script."""
    lines = list(HEAD)
    for session in range(rng.randrange(4)):
        lines.append(f"session {session + 1}")
        lines += [call(rng) for _ in range(rng.randrange(12))]
    if rng.random() < 0.3:
        lines.append("steps")
        lines += [step(rng) for _ in range(rng.randrange(6))]
    return lines


def broken(rng, lines):
    """Returns the lines with up to three changes."""
    for _ in range(rng.randrange(1, 4)):
        at = rng.randrange(len(lines))
        words = lines[at].split(" ")
        change = rng.randrange(7)
        if change == 0:
            del lines[at]
        elif change == 1:
            lines.insert(at, rng.choice(lines))
        elif change == 2:
            words[rng.randrange(len(words))] = rng.choice(NAMES + NUMBERS + TEXTS + WORDS)
            lines[at] = " ".join(words)
        elif change == 3:
            lines[at] += " " + rng.choice(NAMES + NUMBERS + TEXTS + WORDS)
        elif change == 4:
            lines[at] = " ".join(words[:-1])
        elif change == 5:
            lines[at] = rng.choice(["\t", " ", "\r", "# note"]) + lines[at]
        else:
            other = rng.randrange(len(lines))
            lines[at], lines[other] = lines[other], lines[at]
        if not lines:
            return [""]
    return lines


def hostile(rng):
    """Returns bytes that are no script, or one at a limit."""
    kind = rng.randrange(6)
    if kind == 0:
        return bytes(rng.randrange(256) for _ in range(rng.randrange(400)))
    if kind == 1:
        return b"hx 1\nspace a\n" + b"x" * rng.randrange(200000)
    if kind == 2:
        return ("\n".join(valid(rng)[:9]) + "\nsession 1\n" + 'get "a"\n' * rng.choice([16384, 16385])).encode()
    if kind == 3:
        return ("\n" * rng.randrange(100000)).encode() + "\n".join(valid(rng)).encode()
    text = bytearray("\n".join(valid(rng)).encode())
    for _ in range(rng.randrange(1, 4)):
        text[rng.randrange(len(text))] = rng.randrange(256)
    return bytes(text)


def drawn(rng):
    """Returns a text and its kind."""
    kind = rng.choice(["valid", "broken", "broken", "hostile"])
    if kind == "hostile":
        return kind, hostile(rng)
    lines = valid(rng)
    text = "\n".join(broken(rng, lines) if kind == "broken" else lines).encode()
    return kind, text + b"\n" if rng.random() < 0.9 else text


def ends(program, word, text):
    """Returns with which status the program ends on the text, what it writes and tells."""
    done = subprocess.run([program, word], input=text, capture_output=True, timeout=120, check=False)
    return done.returncode, done.stdout, done.stderr


def fault(replayed, planned):
    """Returns what is wrong with the answers of `replay` and `plan` to a text, if anything is."""
    for word, (status, out, err) in (("replay", replayed), ("plan", planned)):
        if status == 0 and (err or not out.endswith(b"end\n")):
            return f"{word} ends with 0 and not as it must"
        if status != 0 and (out or status not in LINES or not re.fullmatch(LINES[status], err)):
            return f"{word} ends with {status} and {err[:80]!r}"
    if replayed[0] == 3 and not replayed[2].endswith(b": step\n") and replayed != planned:
        return "replay and plan refuse it differently"
    if planned[0] == 3 and replayed != planned:
        return "plan alone refuses it"
    return None


def main():
    head, _, rest = __doc__.partition("\n\n")
    words = argparse.ArgumentParser(usage=head.partition(": ")[0], description=rest, formatter_class=argparse.RawDescriptionHelpFormatter)
    words.add_argument("seed", nargs="?", type=int, default=1)
    words.add_argument("texts", nargs="?", type=int, default=2000)
    words.add_argument("other", nargs="?")
    words.add_argument("--program")
    asked = words.parse_args()
    program = program_of(asked.program)
    rng, count = random.Random(asked.seed), collections.Counter()
    for number in range(asked.texts):
        kind, text = drawn(rng)
        answers = [ends(program, word, text) for word in ("replay", "plan")]
        told = fault(*answers)
        if not told and asked.other and [ends(asked.other, word, text) for word in ("replay", "plan")] != answers:
            told = "the other program ends differently"
        if told:
            with open("hostile.hx", "wb") as kept:
                kept.write(text)
            sys.exit(f"text {number} of seed {asked.seed} ({kind}): {told}; it is kept in hostile.hx")
        count[kind, answers[0][2].decode().split(": ")[-1].strip() or "fine"] += 1
    for (kind, told), times in sorted(count.items()):
        print(f"{kind}: {told} {times}")


if __name__ == "__main__":
    main()
