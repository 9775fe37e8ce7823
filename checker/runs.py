#!/usr/bin/env python3
"""An independent checker of whole runs of the search, by brute force over all cuts of small random costs.

It shares no code with the library and takes no shortcut of it: the cut of a successful trial is found among all cuts, as
the one whose boundaries are latest, and only the number of questions is found by walking the halvings as they are defined.

    checker/runs.py           writes crates/plays/stdin and crates/plays/stdout anew
    checker/runs.py --check   says whether the stored files are what it would write
"""
import itertools
import os
import random
import sys

ROOT = os.path.dirname(os.path.dirname(os.path.abspath(__file__)))
FILES = {name: os.path.join(ROOT, "crates", "plays", name) for name in ("stdin", "stdout")}
MOST = 1 << 60
TAGS = {"advance": 5, "try": 6, "take": 7, "tell": 8}


class Cost:
    """Machines of unequal speed: machine k takes start[k] + slow[k] * the weights of its rows."""

    def __init__(self, weights, machines):
        self.weights = weights
        self.machines = machines

    def figure(self, k, a, b):
        if k >= len(self.machines):
            return 0
        start, slow = self.machines[k]
        return min(start + slow * sum(self.weights[a:b]), MOST)

    def of_cut(self, cut):
        return max(self.figure(k, cut[k], cut[k + 1]) for k in range(len(cut) - 1))


class Run:
    """What a newly opened search holds, and what each call makes of it."""

    def __init__(self, cost, blocks, ceiling):
        self.cost, self.blocks, self.ceiling = cost, blocks, ceiling
        self.rows = len(cost.weights)
        inner = itertools.combinations_with_replacement(range(self.rows + 1), blocks - 1)
        self.cuts = [(0,) + middle + (self.rows,) for middle in inner]
        self.priced = [(cost.of_cut(cut), cut) for cut in self.cuts]
        self.floor, self.figure, self.cut = 0, ceiling + 1, None
        self.advances = self.tries = self.questions = 0

    def halving(self, k, s, c):
        """The furthest granted row, or None, and the questions put."""
        low, high, granted, asked = s, self.rows, None, 0
        while low <= high:
            middle = (low + high) // 2
            asked += 1
            if self.cost.figure(k, s, middle) <= c:
                granted, low = middle, middle + 1
            else:
                high = middle - 1
        return granted, asked

    def ask(self, c):
        s = 0
        for k in range(self.blocks):
            s, asked = self.halving(k, s, c)
            self.questions += asked
            if s is None:
                return

    def trial(self, c):
        self.ask(c)
        within = [cut for price, cut in self.priced if price <= c]
        if not within:
            self.floor = c + 1
            return False
        latest = tuple(max(places) for places in zip(*within))
        assert latest in within, "there is a latest cut among those within c"
        self.cut, self.figure = latest, self.cost.of_cut(latest)
        return True

    def check(self):
        """What holds after every call."""
        least = min(price for price, _ in self.priced)
        assert self.floor <= least
        if self.cut is not None:
            assert self.cost.of_cut(self.cut) == self.figure
            for price, cut in self.priced:
                assert price > self.figure or all(x <= y for x, y in zip(cut, self.cut))
        if self.floor == self.figure:
            assert (self.cut is None) == (least > self.ceiling)
            assert self.cut is None or self.figure == least

    def report(self):
        state = "open" if self.floor < self.figure else "none" if self.cut is None else "settled"
        return f"{state} {self.floor} {self.figure} {self.advances} {self.tries} {self.questions}"

    def advance(self, n):
        if not 1 <= n <= 64:
            return "refused 12"
        for _ in range(n):
            if self.floor < self.figure:
                self.advances += 1
                self.trial((self.floor + self.figure) // 2)
        return self.report()

    def try_at(self, c):
        if c > self.ceiling:
            return "refused 10"
        if c < self.floor:
            return "no " + self.report()
        if c >= self.figure:
            return "yes " + self.report()
        self.tries += 1
        return ("yes " if self.trial(c) else "no ") + self.report()

    def take(self, places):
        if self.cut is None:
            return "refused 13"
        if places < self.blocks + 1:
            return "refused 14"
        return "cut " + " ".join(map(str, self.cut))


def play(weights, machines, blocks, ceiling, calls):
    """The answers to a run, line by line."""
    if not 1 <= blocks <= 1024:
        return ["refused 9"]
    if ceiling > MOST - 1:
        return ["refused 10"]
    run = Run(Cost(weights, machines), blocks, ceiling)
    lines = []
    for name, number in calls:
        if name == "advance":
            lines.append(run.advance(number))
        elif name == "try":
            lines.append(run.try_at(number))
        elif name == "take":
            lines.append(run.take(number))
        else:
            lines.append(run.report())
        run.check()
    return lines


def random_run(rng):
    rows = rng.randrange(0, 7)
    weights = [rng.choice((0, 1, 1, 2, 3, 5, 9, 40)) for _ in range(rows)]
    blocks = rng.choice((1, 2, 2, 3, 3, 4, 5)) if rng.random() < 0.97 else rng.choice((0, 1025))
    machines = [(rng.choice((0, 0, 0, 1, 4, 30)), rng.choice((0, 1, 1, 1, 2, 7))) for _ in range(rng.randrange(1, 6))]
    top = rng.choice((0, 1, 5, 20, 60, 200, 5000, MOST - 1)) if rng.random() < 0.98 else MOST
    calls = []
    for _ in range(rng.randrange(0, 9)):
        name = rng.choice(("advance", "advance", "try", "try", "take", "tell"))
        if name == "advance":
            number = rng.choice((1, 1, 1, 2, 3, 64, 0, 65))
        elif name == "try":
            number = rng.randrange(0, min(top, 120) + 2)
        elif name == "take":
            number = rng.choice((0, 1, blocks, blocks + 1, blocks + 1, blocks + 2, 1025))
        else:
            number = 0
        calls.append((name, number))
    return weights, machines, blocks, top, calls


def fields(weights, machines, blocks, ceiling, calls):
    """A run in one line of numbers: the weights and the machines, each list after its length, the blocks, the ceiling, and
    for each call its tag (5 advance, 6 try, 7 take, 8 tell) and its number."""
    words = [len(weights), *weights, len(machines)]
    for start, slow in machines:
        words += [start, slow]
    words += [blocks, ceiling]
    for name, number in calls:
        words += [TAGS[name], number]
    return " ".join(map(str, words))


def texts():
    rng = random.Random(20)
    asked, answered = [], []
    for _ in range(600):
        run = random_run(rng)
        asked.append(fields(*run))
        answered.append(" / ".join(play(*run)) or "nothing")
    return {"stdin": "\n".join(asked) + "\n", "stdout": "\n".join(answered) + "\n"}


def main():
    wanted = texts()
    if sys.argv[1:] == ["--check"]:
        for name, path in FILES.items():
            with open(path) as file:
                if file.read() != wanted[name]:
                    sys.exit(f"checker: {path} is not what the checker writes")
        print("checker: 600 runs of the search, by brute force over all cuts, as stored")
        return
    for name, path in FILES.items():
        with open(path, "w") as file:
            file.write(wanted[name])


if __name__ == "__main__":
    main()
