#!/usr/bin/env python3
"""Scripts of changes after gates over thousands, made at random, one a seed, and the seconds that `feather play` takes.

    benchmarks/fans.py [--beside PROGRAM] [--lines N] FIRST LAST [PROGRAM]

For whoever changes a search: a patch may come after a gate that thousands come before, and each that does would go through
all of these. A seed chooses how many blocks there are and of what size, how many gates and over how many patches each: of one
block, of a few or of any, made before it or behind an open gate; whether a gate comes after an older one; and then, for each
phase, on which blocks changes are made, after which gates, and what else of how old they come after; whether blocks are written
meanwhile, and what is on disk is forgotten. N patches are made (16,000). With --beside a second program plays the same script:
it is to give the same replies, and the line ends in `slow` where PROGRAM takes three times as long. PROGRAM is the program as
`rt run` or `./feather` leaves it; without it `./feather` is used, which builds it once.
"""

import argparse
import os
import random
import sys

from calls import Script
from shapes import ROOT, asked, compared


class Fans:
    """What a seed chooses, and the script that it makes."""

    def __init__(self, seed, patches):
        dice = self.dice = random.Random(seed)
        self.blocks = dice.choice([1, 2, 4, 16, 64, 256])
        self.size = dice.choice([64, 512, 4096])
        self.patches = patches
        self.fans = dice.choice([1, 1, 2, 4, 16])
        self.wide = patches // dice.choice([2, 4, 8]) // self.fans
        self.of = dice.choice(["one block", "a few", "any"])
        self.behind = dice.random() < 0.6
        self.linked = dice.random() < 0.4
        self.deep = dice.random() < 0.5
        self.phases = dice.choice([1, 2, 4])
        self.writes = dice.random() < 0.25
        self.made = Script(self.blocks, self.size)
        self.of_block, self.all, self.gates, self.chosen = [[] for _ in range(self.blocks)], [], [], []

    def says(self):
        return (
            f"blocks {self.blocks} of {self.size}; {self.fans} gates over {self.wide} of {self.of}{', behind a gate' if self.behind else ''}"
            f"{', linked' if self.linked else ''}{', deep' if self.deep else ''}; {', '.join(self.chosen)}{'; writes' if self.writes else ''}"
        )

    def patch(self, block, after):
        number = self.made.patch(block, self.dice.randrange(self.size), after)
        self.of_block[block].append(number)
        self.all.append(number)
        return number

    def block_of(self, fan):
        """The block of a patch below that gate."""
        if self.of == "one block":
            return fan % self.blocks
        if self.of == "a few":
            return (fan + self.dice.randrange(3)) % self.blocks
        return self.dice.randrange(self.blocks)

    def fan(self, fan):
        """A gate over patches of its own, some of which come after one another."""
        first = self.made.gate() if self.behind else None
        names = []
        for _ in range(self.wide):
            after = [first] if first else []
            if self.deep and names and self.dice.random() < 0.2:
                after.append(self.dice.choice(names))
            names.append(self.patch(self.block_of(fan), after))
        if self.linked and self.gates:
            names.insert(self.dice.randrange(len(names) + 1), self.dice.choice(self.gates))
        if first and self.dice.random() < 0.8:
            self.made.ask("seal", gate=first)
        self.gates.append(self.made.sealed(names))

    def older(self, block, which, near):
        """A patch to come after."""
        among = {"own": self.of_block[block], "any": self.all}[which]
        return [among[-1 - self.dice.randrange(min(len(among), near))]] if among else []

    def phase(self, count):
        """Changes after gates, and after something else."""
        dice = self.dice
        blocks = dice.choice([[dice.randrange(self.blocks)], range(min(2, self.blocks)), range(self.blocks)])
        gates = dice.choice(["the last", "each", "none but at times"])
        which, near = dice.choice([None, "own", "any"]), dice.choice([1, 10, 1000, self.patches])
        self.chosen.append(f"on {len(blocks)} after {gates}{f' and one of the last {near} of {which}' if which else ''}")
        for i in range(count):
            block = blocks[i % len(blocks)]
            after = self.older(block, which, near) if which else []
            if gates == "the last" or (gates == "none but at times" and i % 50 == 0):
                after.append(self.gates[-1])
            elif gates == "each":
                after.append(dice.choice(self.gates))
            self.patch(block, after)
            if self.writes and i % 50 == 0:
                self.made.write(dice.randrange(self.blocks))
            if self.writes and i % 500 == 0:
                self.made.ask("forget")

    def script(self):
        for fan in range(self.fans):
            self.fan(fan)
        for _ in range(self.phases):
            self.phase((self.patches - self.fans * self.wide) // self.phases)
        return self.made.lines


def main():
    args = argparse.ArgumentParser(description=__doc__, formatter_class=argparse.RawDescriptionHelpFormatter)
    args.add_argument("--beside", metavar="PROGRAM", help="a second program, whose replies are to be the same")
    args.add_argument("--lines", type=int, default=16_000, metavar="N", help="how many patches are made")
    args.add_argument("first", type=int, metavar="FIRST", help="the first seed")
    args.add_argument("last", type=int, metavar="LAST", help="the last seed")
    args.add_argument("program", nargs="?", metavar="PROGRAM", default=os.path.join(ROOT, "feather"))
    known = asked(args)
    bad = 0
    for seed in range(known.first, known.last + 1):
        made = Fans(seed, known.lines)
        lines = made.script()
        bad += not compared(seed, known.program, known.beside, made.made.words, lines, made.says())
    return 1 if bad else 0


if __name__ == "__main__":
    sys.exit(main())
