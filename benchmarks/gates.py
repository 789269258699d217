#!/usr/bin/env python3
"""Scripts in which many patches come after a gate over thousands, and the processor seconds that `feather play` takes.

    benchmarks/gates.py [--beside PROGRAM] [--patches N] [--only NAME[,NAME]] [PROGRAM]

For whoever changes a search: what looks through a gate's dependencies once for each patch after it takes the square of
their number. N patches are made on random blocks (50,000); each shape is played over 16, 128 and 1,024 blocks. With
--beside a second program plays the same script: it is to give the same replies, and the line ends in `slow` where
PROGRAM takes three times as long. PROGRAM is the program as `rt run` or `./feather` leaves it; without it
`./feather` is used, which builds it once.
"""

import argparse
import os
import random
import sys

from shapes import ROOT, asked, chosen, compared


class Script:
    """The lines so far, and how many numbers were given."""

    def __init__(self, blocks):
        self.dice, self.blocks, self.lines, self.given = random.Random(1), blocks, [], 0

    def patch(self, after=()):
        dice, names = self.dice, ",".join(map(str, sorted(set(after))))
        tail = ',"after":[%s]' % names if names else ""
        line = '{"do":"patch","block":%d,"at":%d,"data":"%s"%s}'
        self.lines.append(line % (dice.randrange(self.blocks), dice.randrange(4088), "41" * dice.choice([1, 8]), tail))
        self.given += 1
        return self.given

    def patches(self, count):
        return [self.patch() for _ in range(count)]

    def gate(self, names):
        """A gate over the names, 64 a line, which is sealed then."""
        self.lines.append('{"do":"gate"}')
        self.given += 1
        for first in range(0, len(names), 64):
            few = ",".join(map(str, names[first : first + 64]))
            self.lines.append('{"do":"depend","gate":%d,"on":[%s]}' % (self.given, few))
        self.lines.append('{"do":"seal","gate":%d}' % self.given)
        return self.given

    def empty(self, names):
        self.lines.append('{"do":"empty","after":[%s]}' % ",".join(map(str, names)))
        self.given += 1
        return self.given

    def group(self, count, after=None):
        self.lines.append('{"do":"group"}')
        head = self.given + 1
        if after:
            self.lines.append('{"do":"group_after","group":%d,"on":%d}' % (head, after))
        for _ in range(count):
            line = '{"do":"group_patch","group":%d,"block":%d,"at":%d,"data":"41414141"}'
            self.lines.append(line % (head, self.dice.randrange(self.blocks), self.dice.randrange(4088)))
        self.lines.append('{"do":"group_close","group":%d}' % head)
        self.given += count + 2
        return head


def half(made, count):
    """All after a gate over the first half."""
    gate = made.gate(made.patches(count // 2))
    for _ in range(count // 2):
        made.patch([gate])


def second(made, count):
    """Every second one after a gate over the first half."""
    gate = made.gate(made.patches(count // 2))
    for i in range(count // 2):
        made.patch([gate] if i % 2 else [])


def any_besides(made, count):
    """All after a gate over the first half, and any one before."""
    gate = made.gate(made.patches(count // 2))
    for _ in range(count // 2):
        made.patch([gate, made.dice.randint(1, made.given)])


def twenty(made, count):
    """Each after one of twenty gates over some of the first half."""
    first = made.patches(count // 2)
    gates = [made.gate(made.dice.sample(first, len(first) // 16)) for _ in range(20)]
    for _ in range(count // 2):
        made.patch([made.dice.choice(gates)])


def two_of_twenty(made, count):
    """Each after two of those gates, and one of the first half."""
    first = made.patches(count // 2)
    gates = [made.gate(made.dice.sample(first, len(first) // 16)) for _ in range(20)]
    for _ in range(count // 2):
        made.patch([*made.dice.sample(gates, 2), made.dice.choice(first)])


def barriers(made, count):
    """A tenth after a gate over the tenth before it, ten times."""
    before = []
    for _ in range(10):
        gate = [made.gate(before)] if before else []
        before = [made.patch(gate) for _ in range(count // 10)]


def empties(made, count):
    """All after an empty patch over the first half, 64 by 64."""
    names = made.patches(count // 2)
    while len(names) > 1:
        names = [made.empty(names[first : first + 64]) for first in range(0, len(names), 64)]
    for _ in range(count // 2):
        made.patch(names)


def groups(made, count):
    """Twenty groups after one of two fifths."""
    first = made.group(count * 2 // 5)
    for _ in range(20):
        made.group(count // 50, first)


SHAPES = [half, second, any_besides, twenty, two_of_twenty, barriers, empties, groups]


def main():
    args = argparse.ArgumentParser(description=__doc__, formatter_class=argparse.RawDescriptionHelpFormatter)
    args.add_argument("--beside", metavar="PROGRAM", help="a second program, whose replies are to be the same")
    args.add_argument("--patches", type=int, default=50_000, metavar="N", help="how many patches are made")
    args.add_argument("--only", metavar="NAME[,NAME]", help=", ".join(shape.__name__ for shape in SHAPES))
    args.add_argument("program", nargs="?", metavar="PROGRAM", default=os.path.join(ROOT, "feather"))
    known = asked(args)
    bad = 0
    for shape in chosen(args, known.only, SHAPES):
        for blocks in (16, 128, 1024):
            made = Script(blocks)
            shape(made, known.patches)
            words = ["--blocks", str(blocks), "--size", "4096"]
            name = f"{shape.__name__}, {blocks} blocks"
            bad += not compared(name, known.program, known.beside, words, [*made.lines, '{"do":"stat"}'])
    return 1 if bad else 0


if __name__ == "__main__":
    sys.exit(main())
