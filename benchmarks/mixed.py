#!/usr/bin/env python3
"""Scripts of all calls at random, one a seed, and the processor seconds that `feather play` takes.

    benchmarks/mixed.py [--beside PROGRAM] [--lines N] [--without CALL[,CALL]] FIRST LAST [PROGRAM]

For whoever changes what a call looks at or answers: a seed chooses how many blocks there are and of what size, how often each
call comes, and how far back a call names patches; then any call comes at any time, so that many are refused, writes stay out
for long, gates stay open, and what was forgotten is named again. N lines are played (3,000). With --without these calls are
left out, to see which one takes the time. With --beside a second program plays the same script: it is to give the same
replies, and the line ends in `slow` where PROGRAM takes three times as long. PROGRAM is the program as `rt run` or
`./feather` leaves it; without it `./feather` is used, which builds it once.
"""

import argparse
import os
import random
import sys

from shapes import ROOT, asked, compared

EVERY = ("patch", "patch", "empty", "gate", "depend", "seal", "write", "write", "done", "done", "pick", "choose", "place")
GROUPS = ("group", "group_patch", "group_patch", "group_after", "group_close")
SELDOM = ("show", "evict", "retry", "stat")


class Mix:
    """What a seed chooses, and the script that it makes."""

    def __init__(self, seed, without):
        dice = self.dice = random.Random(seed)
        self.blocks = dice.choice([1, 2, 4, 16, 64, 256])
        self.size = dice.choice([4, 16, 256])
        self.resident = max(1, self.blocks // 2) if dice.random() < 0.3 else self.blocks
        self.near = dice.choice([5, 50, 500, 1_000_000])
        calls = [call for call in EVERY for _ in range(dice.choice([1, 3, 10]))]
        if dice.random() < 0.5:
            calls += [call for call in GROUPS for _ in range(dice.choice([1, 3, 10]))]
        calls += SELDOM
        calls += ["forget"] if dice.random() < 0.7 else []
        calls += ["crash"] if dice.random() < 0.3 else []
        self.calls = [call for call in calls if call not in without]
        self.given, self.ticket, self.gates, self.groups = 0, 0, [], []

    def words(self):
        return ["--blocks", str(self.blocks), "--size", str(self.size), "--resident", str(self.resident)]

    def says(self):
        return f"blocks {self.blocks} of {self.size}, resident {self.resident}, names {self.near} back"

    def name(self):
        """A number that may have been given, and may be forgotten."""
        return max(1, self.given - self.dice.randrange(min(self.given, self.near))) if self.given else 1

    def names(self, counts):
        return ",".join(str(self.name()) for _ in range(self.dice.choice(counts)))

    def member(self, names, last):
        """One of the newest, whose number may be off where calls were refused."""
        return self.dice.choice(names[-last:]) if names else 1

    def line(self):
        dice, call, block = self.dice, self.dice.choice(self.calls), self.dice.randrange(self.blocks)
        at = dice.randrange(self.size)
        if call in ("patch", "group_patch"):
            data = "%02x" % dice.randrange(256) * min(self.size - at, dice.choice([1, 1, 2, 8]))
            group = ',"group":%d' % self.member(self.groups, 5) if call == "group_patch" else ""
            after = ',"after":[%s]' % self.names([0, 0, 1, 1, 2, 3]) if call == "patch" else ""
            self.given += 1
            return '{"do":"%s"%s,"block":%d,"at":%d,"data":"%s"%s}' % (call, group, block, at, data, after)
        if call == "empty":
            self.given += 1
            return '{"do":"empty","after":[%s]}' % self.names([0, 1, 2, 5])
        if call in ("gate", "group"):
            made = self.gates if call == "gate" else self.groups
            made.append(self.given + 1)
            self.given += 1 if call == "gate" else 2
            return '{"do":"%s"}' % call
        if call == "depend":
            return '{"do":"depend","gate":%d,"on":[%s]}' % (self.member(self.gates, 20), self.names([0, 1, 2, 5]))
        if call == "seal":
            return '{"do":"seal","gate":%d}' % self.member(self.gates, 20)
        if call == "group_after":
            return '{"do":"group_after","group":%d,"on":%d}' % (self.member(self.groups, 8), self.member(self.groups, 8))
        if call == "group_close":
            return '{"do":"group_close","group":%d}' % self.member(self.groups, 5)
        if call == "done":
            self.ticket += dice.choice([0, 1, 1])
            # (which clean block makes room is no promise, and a read that fails would show it)
            ways = ["before", "after"] + (["read"] if self.resident == self.blocks else [])
            fails = ',"fail":"%s"' % dice.choice(ways) if dice.random() < 0.2 else ""
            return '{"do":"done","ticket":%d%s}' % (max(1, self.ticket - dice.choice([0, 0, 0, 1, 2])), fails)
        if call == "place":
            return '{"do":"place","patch":%d}' % self.name()
        if call == "crash":
            return '{"do":"crash"}'
        if call in ("pick", "forget", "stat"):
            return '{"do":"%s"}' % call
        return '{"do":"%s","block":%d}' % (call, block)


def main():
    args = argparse.ArgumentParser(description=__doc__, formatter_class=argparse.RawDescriptionHelpFormatter)
    args.add_argument("--beside", metavar="PROGRAM", help="a second program, whose replies are to be the same")
    args.add_argument("--lines", type=int, default=3000, metavar="N", help="how many lines are played")
    args.add_argument("--without", default="", metavar="CALL[,CALL]", help="calls that are left out")
    args.add_argument("first", type=int, metavar="FIRST", help="the first seed")
    args.add_argument("last", type=int, metavar="LAST", help="the last seed")
    args.add_argument("program", nargs="?", metavar="PROGRAM", default=os.path.join(ROOT, "feather"))
    known = asked(args)
    bad = 0
    for seed in range(known.first, known.last + 1):
        mix = Mix(seed, known.without.split(","))
        script = [mix.line() for _ in range(known.lines)]
        bad += not compared(seed, known.program, known.beside, mix.words(), script, mix.says())
    return 1 if bad else 0


if __name__ == "__main__":
    sys.exit(main())
