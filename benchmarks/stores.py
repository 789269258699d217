#!/usr/bin/env python3
"""Scripts of stores as they are built over a buffer cache, and the processor seconds that `feather play` takes.

    benchmarks/stores.py [--beside PROGRAM] [--only NAME[,NAME]] [PROGRAM]

For whoever changes a search: a file system with soft updates (an inode before the entry that names it, a free block after the
inode that let it go), a journal (records, the commit record after them, the home blocks after that), and a tree whose nodes are
written before what points at them, each with all of it in memory and with a backlog that is written back, as `pick` says, and
forgotten; then blocks in layers and in a grid, where each change comes after one of the layer below. With --beside a second
program plays the same script: it is to give the same replies, and the line ends in `slow` where PROGRAM takes three times as
long. PROGRAM, which is asked what may be written, is the program as `rt run` or `./feather` leaves it; without it `./feather`
is used, which builds it once.
"""

import argparse
import os
import sys

from calls import Script
from shapes import ROOT, asked, chosen, compared
from steady import Guide

# How often what is on disk is forgotten, in transactions.
FORGETS = 200


class Store(Script):
    """A script that is played by a program as it is made, so that what it names may be written back."""

    def __init__(self, blocks, size, program):
        super().__init__(blocks, size)
        self.guide, self.told, self.turns = Guide(program, self.words) if program else None, 0, 0

    def reply(self, call, **members):
        """The words of the reply to one more call."""
        self.ask(call, **members)
        while self.told < len(self.lines):
            some = self.lines[self.told : self.told + 300]
            self.told += len(some)
            words = self.guide.ask(some)[-1]
        return words

    def keep_to(self, backlog):
        """Writes a few blocks once more patches than the backlog are not on disk, and forgets what is there at times."""
        self.turns += 1
        if not self.guide or self.turns % 10:
            return
        if int(self.reply("stat")[4]) > backlog:
            for _ in range(10):
                block = self.reply("pick")[1]
                if block == "none":
                    break
                self.write(int(block))
        if self.turns % FORGETS == 0:
            self.ask("forget")

    def anywhere(self, first, past, after=(), size=480):
        """A change of one of these blocks, at random."""
        return self.patch(self.dice.randrange(first, past), self.dice.randrange(size), [it for it in after if it])

    def end(self):
        if self.guide:
            self.guide.close()
        return self


def soft_updates(made, backlog):
    """A file system: four bitmap blocks, 64 blocks of inodes, 64 of directories, 824 of data."""
    files, dice = [], made.dice
    for _ in range(16_000):
        what = dice.random()
        if what < 0.5 or not files:
            bitmap = made.anywhere(0, 4)
            data = made.anywhere(200, 1024, [bitmap])
            inode, folder = dice.randrange(8, 72), dice.randrange(72, 136)
            node = made.anywhere(inode, inode + 1, [data, bitmap])
            files.append((inode, folder, node, made.anywhere(folder, folder + 1, [node])))
        elif what < 0.75:
            inode, folder, _, entry = files.pop(dice.randrange(len(files)))
            entry = made.anywhere(folder, folder + 1, [entry])
            made.anywhere(0, 4, [made.anywhere(inode, inode + 1, [entry])])
        else:
            at = dice.randrange(len(files))
            inode, folder, node, _ = files[at]
            other = dice.randrange(72, 136)
            linked = made.anywhere(inode, inode + 1, [node])
            entry = made.anywhere(other, other + 1, [linked])
            gone = made.anywhere(folder, folder + 1, [entry])
            files[at] = (inode, other, made.anywhere(inode, inode + 1, [gone]), entry)
        made.keep_to(backlog)
    return made.end()


def soft_updates_in_memory(program):
    """A file system of which nothing is written."""
    return soft_updates(Store(1024, 512, None), 0)


def soft_updates_written(program):
    """A file system, with a backlog of 1,500 patches."""
    return soft_updates(Store(1024, 512, program), 1500)


def soft_updates_behind(program):
    """A file system, with a backlog of 12,000 patches."""
    return soft_updates(Store(1024, 512, program), 12_000)


def journal(made, homes, backlog):
    """Transactions of four records, a commit record and four home blocks, one after another, with a gate after each fifty."""
    last = None
    for turn in range(5000):
        records = [made.anywhere(16 + (4 * turn + at) % 48, 17 + (4 * turn + at) % 48, [last]) for at in range(4)]
        commit = made.anywhere(1 + turn % 8, 2 + turn % 8, records)
        home = [made.anywhere(64, 64 + homes, [commit]) for _ in range(4)]
        last = made.sealed(sorted(home)) if turn % 50 == 49 else commit
        if turn % 100 == 99:
            made.anywhere(0, 1, [last])
        made.keep_to(backlog)
    return made.end()


def journal_in_memory(program):
    """A journal of which nothing is written."""
    return journal(Store(512, 512, None), 64, 0)


def journal_written(program):
    """A journal over 400 home blocks, with a backlog of 3,000 patches."""
    return journal(Store(512, 512, program), 400, 3000)


def journal_of_few(program):
    """A journal over four home blocks, with a backlog of 3,000 patches."""
    return journal(Store(512, 512, program), 4, 3000)


def tree(made, backlog):
    """A leaf, the node above it after it, the one above that, and the root last."""
    for _ in range(14_000):
        leaf = made.dice.randrange(128, 1024)
        above = made.anywhere(leaf, leaf + 1)
        for node in (16 + leaf // 10, 1 + leaf // 100, 0):
            above = made.anywhere(node, node + 1, [above])
        made.keep_to(backlog)
    return made.end()


def tree_in_memory(program):
    """A tree of which nothing is written."""
    return tree(Store(1024, 512, None), 0)


def tree_written(program):
    """A tree, with a backlog of 2,000 patches."""
    return tree(Store(1024, 512, program), 2000)


def layers(program):
    """40,000 changes of 64 blocks of 4,096 bytes, each after one of the last 300 of the block below."""
    made, of = Store(64, 4096, None), [[] for _ in range(64)]
    for _ in range(40_000):
        block = made.dice.randrange(64)
        below = of[block - 1][-300:] if block else []
        of[block].append(made.anywhere(block, block + 1, [made.dice.choice(below)] if below else [], 4096))
    return made


def layers_of_any(program):
    """40,000 changes of 1,024 blocks, each after any one of a block that is lower in an order made at random."""
    made, of = Store(1024, 256, None), [[] for _ in range(1024)]
    order = list(range(1024))
    made.dice.shuffle(order)
    for _ in range(40_000):
        layer = made.dice.randrange(1024)
        below = of[made.dice.randrange(layer)] if layer else []
        block = order[layer]
        of[layer].append(made.anywhere(block, block + 1, [made.dice.choice(below)] if below else [], 256))
    return made


def grid(program):
    """200 rows of 200 blocks, forth and back by turns, each change after the one before it and the one of its block below."""
    made, of = Store(200, 4096, None), [None] * 200
    for row in range(200):
        last = None
        for block in range(200) if row % 2 else reversed(range(200)):
            last = of[block] = made.anywhere(block, block + 1, [of[block], last], 4096)
    return made


SHAPES = [
    soft_updates_in_memory, soft_updates_written, soft_updates_behind, journal_in_memory, journal_written, journal_of_few,
    tree_in_memory, tree_written, layers, layers_of_any, grid,
]


def main():
    args = argparse.ArgumentParser(description=__doc__, formatter_class=argparse.RawDescriptionHelpFormatter)
    args.add_argument("--beside", metavar="PROGRAM", help="a second program, whose replies are to be the same")
    args.add_argument("--only", metavar="NAME[,NAME]", help=", ".join(shape.__name__ for shape in SHAPES))
    args.add_argument("program", nargs="?", metavar="PROGRAM", default=os.path.join(ROOT, "feather"))
    known = asked(args)
    bad = 0
    for shape in chosen(args, known.only, SHAPES):
        made = shape(known.program)
        name = f"{shape.__name__}, {len(made.lines)} lines"
        bad += not compared(name, known.program, known.beside, made.words, [*made.lines, '{"do":"stat"}'])
    return 1 if bad else 0


if __name__ == "__main__":
    sys.exit(main())
