#!/usr/bin/env python3
"""tools/wrap.py [--check] [FILE ..]: breaks the lines of definitions and proofs that have more than 160 columns.

Without files it goes through all `.antt` files that git lists. A line is broken where the fewest brackets are open,
before an arrow or an operator or behind an equals sign, a comma or `in`; no word changes. `rt fmt` then says how far
the new lines are indented. Long texts between quotes can't be broken and aren't counted. With --check it changes
nothing, prints the lines that are too long, and ends with 1 where there are any.
"""

import re
import subprocess
import sys

MOST, GOAL, COMMENT = 160, 118, 100
TEXT = re.compile(r'"(\\.|[^"\\])*"')
LONG_TEXT = re.compile(r'"(\\.|[^"\\]){60,}"')
OPENS, CLOSES = "([{", ")]}"
# What a line is broken before and behind, each with its cost: the lower, the looser it binds.
BEFORE = {"|": 0, "→": 1, "×": 1, "⊎": 1, "∙": 2}
BEFORE |= dict.fromkeys("≡ ≢ ≤ < ++ && ||".split(), 3) | dict.fromkeys("∷ + *".split(), 5)
BEHIND = {"in": 0, "=": 1, "↦": 2}
BEHIND_SIGN = {";": 0, ",": 1}
NEVER_BEHIND = {"λ", "let", "|", "pub", "record"}
SELDOM_BEHIND = {":", "abbrev", "elim", "using", "rw", "as"}
SELDOM_BEFORE = {"=", "in", ":", "↦"}
BEFORE_BRACKET, BETWEEN_WORDS, SELDOM = 3.5, 4, 8


def columns(line):
    """Returns how many columns a line has without its long texts."""
    return len(LONG_TEXT.sub("", line))


def depths(line):
    """Returns how many brackets are open at each place of a line, and None inside of texts."""
    open_now, found = 0, []
    texts = [it.span() for it in TEXT.finditer(line)]
    for place, sign in enumerate(line):
        if any(begin <= place < end for begin, end in texts):
            found.append(None)
            continue
        open_now -= sign in CLOSES
        found.append(open_now)
        open_now += sign in OPENS
    return found


def head_end(line, depth):
    """Returns where the head of a clause or the name of a signature ends, which stay on the first line."""
    if line.startswith("let "):
        return 0
    name = re.match(r"(pub )?(abbrev )?[^\s(]+ : ", line)
    if name:
        return name.end() - 1
    return next((it.start() + 1 for it in re.finditer(" = ", line) if depth[it.start()] == 0), 0)


def is_in_binder(line, end):
    """Whether the word that ends there is a name that a λ binds."""
    binder = line[:end]
    begin = binder.rfind("λ")
    return begin >= 0 and not re.search(r"\.(\s|$)", binder[begin:])


def cost(line, word, end, follows):
    """Returns the cost of a break between two words, or None where there must be none."""
    if follows == "where" or word in NEVER_BEHIND or word in OPENS or follows[0] in CLOSES:
        return None
    if follows in BEFORE:
        return BEFORE[follows]
    if word in BEFORE:
        return None
    if word in BEHIND or word[-1] in BEHIND_SIGN:
        return BEHIND.get(word, BEHIND_SIGN.get(word[-1]))
    if follows in SELDOM_BEFORE or word in SELDOM_BEHIND or is_in_binder(line, end):
        return SELDOM
    return BEFORE_BRACKET if follows[0] in OPENS else BETWEEN_WORDS


def breaks(line, is_first):
    """Returns the places where a line may be broken, each with its cost."""
    depth = depths(line)
    head = head_end(line, depth) if is_first else 0
    words = [(it.start(), it.end()) for it in re.finditer(r"\S+", line)]
    found = []
    for (begin, end), (after, last) in zip(words, words[1:]):
        price = None if depth[end] is None or end <= head else cost(line, line[begin:end], end, line[after:last])
        if price is not None:
            found.append((end, 3 * depth[end] + price))
    return found


def best_break(line, room, is_first):
    """Returns where the line is broken, best in the second half of its room, or None."""
    places = breaks(line, is_first)
    for low in (0.4, 0.2, 0):
        inside = [(price, -at) for at, price in places if low * room < at <= room]
        if inside:
            return -min(inside)[1]
    return next((at for at, _ in places if at > room), None)


def code(margin, line):
    """Returns the lines of a clause, a signature or a term."""
    lines, indent, is_first = [], margin, True
    while columns(line) + indent > (MOST if is_first else GOAL + 12):
        at = best_break(line, GOAL - indent, is_first)
        if at is None:
            break
        lines.append(" " * indent + line[:at])
        line, indent, is_first = line[at:].lstrip(), margin + 4, False
    return [*lines, " " * indent + line]


def comment(margin, line):
    """Returns the lines of a comment."""
    lines, now = [], "--"
    for word in line[2:].split():
        if margin + len(now) + 1 + len(word) > COMMENT:
            lines.append(" " * margin + now)
            now = "--"
        now += f" {word}"
    return [*lines, " " * margin + now]


def imports(margin, line):
    """Returns the lines that import what one did."""
    module, names, rest = re.match(r"(.*\.\{)(.*)\}(.*)$", line).groups()
    lines, now = [], ""
    for name in names.split(", "):
        if now and margin + len(module) + len(now) + 2 + len(name) > GOAL:
            lines.append(now)
            now = ""
        now += f", {name}" if now else name
    return [f"{' ' * margin}{module}{it}}}{rest}" for it in [*lines, now]]


def wrapped(line):
    """Returns the lines that one becomes."""
    if columns(line) <= MOST:
        return [line]
    bare = line.strip()
    kind = comment if bare.startswith("--") else imports if re.match(r"(pub )?use .*\.\{", bare) else code
    return kind(len(line) - len(line.lstrip()), bare)


def listed():
    """Returns the files of definitions and proofs that git lists."""
    ran = subprocess.run(["git", "ls-files", "*.antt"], capture_output=True, text=True, check=True)
    return ran.stdout.split()


def main(words):
    only_tells = "--check" in words
    long = 0
    for name in [it for it in words if it != "--check"] or listed():
        with open(name, encoding="utf-8") as file:
            text = file.read()
        new = text if only_tells else "\n".join(it for line in text.split("\n") for it in wrapped(line))
        if new != text:
            with open(name, "w", encoding="utf-8") as file:
                file.write(new)
        for number, line in enumerate(new.split("\n"), 1):
            if columns(line) > MOST:
                print(f"{name}:{number}: {columns(line)} columns")
                long += 1
    return bool(long)


if __name__ == "__main__":
    sys.exit(main(sys.argv[1:]))
