#!/usr/bin/env python3
""".ci/checks.d/traces.py: what the traces of runs on threads show.

Entries are numbered as the clock numbered them: each delivery names an earlier entry's post to its
actor. Actors are dealt to drivers in turn, and each driver loses and repeats the posts of its own
that its fate chooses: by their numbers, or as drawn here apart from the program. All other posts
are delivered once, also where more of them wait than a box holds.
"""

import re
import subprocess
import sys

PROGRAM = "crates/hx_tool/out/hx_tool"
STEP = 0x9E3779B97F4A7C15
MASK = (1 << 64) - 1
PLACES_OF_A_BOX = 1024
TIMES = {"deliver": 1, "lose": 0, "twice": 2}
ENTRY = re.compile(r"entry (\d+) (\w+) (?:tick|halt|deliver (\d+\.\d+))")
POST = re.compile(r"post ((\d+)\.\d+) (\w+) (\w+).*")
CALL = re.compile(r"^ *(?:put|get|del|cput|atomic|search|stop|add)\b", re.M)
DRIVER = re.compile(r"driver (\d+) posts (\d+) deliver (\d+) lose (\d+) twice (\d+)")

# One server is asked for 4,096 regions at once.
FULL = "hx 1\nspace full\nkey k 256\nservers 1\ntolerate 0\n" + "".join(
    f"session {s}\nsearch\n" for s in range(1, 17)
)
# Sixteen actors, of which each but the coordinator calls or is called often.
BUSY = "hx 1\nspace busy\nkey k 4\nint n 0 9\nservers 4\ntolerate 1\n" + "".join(
    f"session {s}\n" + f'put "a{s}" n={s}\nget "a{s}"\nsearch\n' * 3 for s in range(1, 12)
)


def draw(seed, number):
    """Returns the draw of a number, from 0, of SplitMix64."""
    z = (seed + (number + 1) * STEP) & MASK
    z = ((z ^ (z >> 30)) * 0xBF58476D1CE4E5B9) & MASK
    z = ((z ^ (z >> 27)) * 0x94D049BB133111EB) & MASK
    return z ^ (z >> 31)


def choice(lose, repeat, seed, driver, number):
    """Returns what the fate of a driver makes of its post of this number, both from 0."""
    first = second = number + 1
    if seed is not None:
        first = draw(draw(seed, driver), number)
        second = first >> 32
    if lose and first % lose == 0:
        return "lose"
    return "twice" if repeat and second % repeat == 0 else "deliver"


class Trace:
    """The entries, posts and drivers of a report, and what is wrong with them."""

    def __init__(self, script, report, workers):
        self.servers = int(re.search(r"^servers (\d+)", script, re.M)[1])
        self.workers, self.faults = workers, []
        self.actors, self.posts, self.delivered, self.halted = [], {}, {}, set()
        self.drivers, self.waiting, self.most_waiting = [], {}, 0
        for line in report.splitlines():
            if it := ENTRY.fullmatch(line):
                self.add_entry(int(it[1]), it[2], it[3])
            elif it := POST.fullmatch(line):
                self.add_post(it[1], int(it[2]), it[3], it[4])
            elif it := DRIVER.fullmatch(line):
                self.drivers.append(tuple(map(int, it.groups())))

    def add_entry(self, number, actor, post):
        self.actors.append(actor)
        if number != len(self.actors):
            self.faults.append(f"entry {number} stands at place {len(self.actors)}")
        if post:
            self.delivered[post] = self.delivered.get(post, 0) + 1
            self.waiting[actor] = self.waiting.get(actor, 0) - 1
            if self.posts.get(post, ("", "", ""))[1] != actor:
                self.faults.append(f"entry {number} takes {post}, which nobody sent to {actor}")

    def add_post(self, name, number, to, kind):
        if number != len(self.actors):
            self.faults.append(f"post {name} stands behind entry {len(self.actors)}")
        self.posts[name] = (self.actors[-1], to, kind)
        self.waiting[to] = self.waiting.get(to, 0) + 1
        self.most_waiting = max(self.most_waiting, self.waiting[to])
        if kind == "gone":
            self.halted.add(self.actors[-1])

    def driver_of(self, actor):
        """Returns the number, from 0, of the driver that an actor is dealt to."""
        place = 0 if actor == "c" else int(actor[1:]) + (self.servers if actor[0] == "u" else 0)
        return place % self.workers

    def judge(self, lose, repeat, seed):
        """Compares what became of each post with what its driver's fate chooses."""
        asked = [0] * self.workers
        counts = [dict.fromkeys(TIMES, 0) for _ in range(self.workers)]
        for name, (actor, to, kind) in self.posts.items():
            driver = self.driver_of(actor)
            chosen = "deliver"
            if kind != "gone":
                chosen = choice(lose, repeat, seed, driver, asked[driver])
                asked[driver] += 1
            counts[driver][chosen] += 1
            times, wanted = self.delivered.get(name, 0), TIMES[chosen]
            if times > wanted or (times < wanted and to not in self.halted):
                self.faults.append(f"post {name} is delivered {times} times in place of {wanted}")
        wanted = [(at + 1, sum(it.values()), *it.values()) for at, it in enumerate(counts)]
        if self.drivers != wanted:
            self.faults.append(f"drivers count {self.drivers} in place of {wanted}")
        return asked[-1]


def complain(words, fault):
    print(f"check failed: hx {' '.join(words)}: {fault}")
    sys.exit(1)


def traced(script, workers, lose=0, repeat=0, seed=None):
    """Runs the script, judges its trace, and returns the most posts that waited for an actor, and
    how many posts the last driver's fate was asked of."""
    words = f"run --trace --workers {workers} --lose {lose} --repeat {repeat}".split()
    words += [] if seed is None else ["--seed", str(seed)]
    made = subprocess.run(
        [PROGRAM, *words], input=script, capture_output=True, text=True, timeout=60, check=False
    )
    report, told = made.stdout, made.stderr.strip()
    answers = len(re.findall(r"^call .* -> (?!open)", report, re.M))
    if made.returncode or answers != len(CALL.findall(script)) or not report.endswith("\nend\n"):
        complain(words, f"it ends with {made.returncode} and '{told}', or answers {answers} calls")
    trace = Trace(script, report, workers)
    asked = trace.judge(lose, repeat, seed)
    if trace.faults:
        complain(words, trace.faults[0])
    return trace.most_waiting, asked


def main():
    with open("examples/library.hx", encoding="utf-8") as it:
        library = it.read()
    for workers in (1, 2, 3):
        traced(library, workers)
        traced(library, workers, lose=2, seed=1)
    traced(library, 1, lose=7, repeat=2)
    traced(library, 2, repeat=2, seed=0)
    traced(library, 16, repeat=2)
    for workers, repeat, seed in (1, 2, 7), (2, 2, 7), (2, 3, 7), (16, 2, MASK):
        if traced(BUSY, workers, 3, repeat, seed)[1] < 10:
            complain(["run"], f"the last fate of {workers} was asked of fewer than ten posts")
    if traced(FULL, 1)[0] <= PLACES_OF_A_BOX:
        complain(["run"], "no more posts wait than a box holds")
    traced(FULL, 2, repeat=2)


main()
