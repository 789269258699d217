#!/usr/bin/env python3
"""Scripts of changes over soft ones of their own block, made at random, one a seed, and the seconds that `feather play` takes.

    benchmarks/behind.py [--beside PROGRAM] [--lines N] FIRST LAST [PROGRAM]

For whoever changes a search: first come changes behind gates, which are soft, then changes after older ones of their own
block or of any. A search goes through a block's own soft changes before it comes to those of others, and once the gates are
sealed no open gate ends it. A seed chooses how many blocks there are and of what size, how many changes come first and behind
how many gates, whether a gate depends on an older patch, when the gates are sealed (at once, one by one, later or never), how
many a change comes after and how far back, and whether blocks are written meanwhile. N patches are made (16,000). With
--beside a second program plays the same script: it is to give the same replies, and the line ends in `slow` where PROGRAM
takes three times as long. PROGRAM is the program as `rt run` or `./feather` leaves it; without it `./feather` is used, which
builds it once.
"""

import argparse
import os
import random
import sys

from calls import Script
from shapes import ROOT, asked, compared


class Behind:
    """What a seed chooses, and the script that it makes."""

    def __init__(self, seed, patches):
        dice = self.dice = random.Random(seed)
        self.blocks = dice.choice([1, 2, 4, 16, 64, 256])
        self.size = dice.choice([64, 256, 4096])
        self.first = min(patches, dice.choice([200, 1000, 3000, 8000]))
        self.gates = dice.choice([1, 1, 2, 5, 50])
        self.sealed = dice.choice(["at once", "one by one", "later", "never"])
        self.own = dice.choice([1, 0.9, 0.5])
        self.names = dice.choice([1, 1, 2, 4])
        self.near = dice.choice([10, 100, 1000, patches])
        self.linked = dice.random() < 0.5
        self.writes = dice.random() < 0.3
        self.patches = patches
        self.made = Script(self.blocks, self.size)
        self.of_block, self.all = [[] for _ in range(self.blocks)], []

    def says(self):
        return (
            f"blocks {self.blocks} of {self.size}; {self.first} behind {self.gates} gates{', linked' if self.linked else ''}, sealed "
            f"{self.sealed}; then after {self.names} of the last {self.near}, own {self.own}{'; writes' if self.writes else ''}"
        )

    def patch(self, block, after):
        number = self.made.patch(block, self.dice.randrange(self.size), after)
        self.of_block[block].append(number)
        self.all.append(number)

    def behind(self):
        """The first changes, behind gates, of which those that are open still come back."""
        opened = []
        for i in range(self.first):
            if i % max(1, self.first // self.gates) == 0:
                opened.append(self.made.gate())
                if self.linked and self.all:
                    self.made.depend(opened[-1], self.dice.choice(self.all))
                if self.sealed == "one by one" and len(opened) > 1:
                    self.made.ask("seal", gate=opened.pop(0))
            self.patch(self.dice.randrange(self.blocks), [opened[-1]])
        if self.sealed == "at once":
            for gate in opened:
                self.made.ask("seal", gate=gate)
            opened = []
        return opened

    def script(self):
        opened, rest = self.behind(), self.patches - self.first
        for i in range(rest):
            block = self.dice.randrange(self.blocks)
            older = self.of_block[block] if self.dice.random() < self.own else self.all
            near = min(len(older), self.near)
            self.patch(block, [older[-1 - self.dice.randrange(near)] for _ in range(self.names)] if older else [])
            if opened and self.sealed in ("later", "one by one") and self.dice.random() < 2 * self.gates / rest:
                self.made.ask("seal", gate=opened.pop(0))
            if self.writes and i % 50 == 0:
                self.made.write(self.dice.randrange(self.blocks))
        return self.made.lines


def main():
    args = argparse.ArgumentParser(description=__doc__, formatter_class=argparse.RawDescriptionHelpFormatter)
    args.add_argument("--beside", metavar="PROGRAM", help="a second program, whose replies are to be the same")
    args.add_argument("--lines", type=int, default=16_000, metavar="N", help="how many patches are made")
    args.add_argument("first", type=int, metavar="FIRST", help="the first seed")
    args.add_argument("last", type=int, metavar="LAST", help="the last seed")
    args.add_argument("program", nargs="?", metavar="PROGRAM", default=os.path.join(ROOT, "feather"))
    known = asked(args)
    bad = 0
    for seed in range(known.first, known.last + 1):
        made = Behind(seed, known.lines)
        bad += not compared(seed, known.program, known.beside, made.made.words, made.script(), made.says())
    return 1 if bad else 0


if __name__ == "__main__":
    sys.exit(main())
