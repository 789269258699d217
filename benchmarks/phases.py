#!/usr/bin/env python3
"""Scripts in phases, made at random, one a seed, and the processor seconds that `feather play` takes over them.

    benchmarks/phases.py [--beside PROGRAM] [--patches N] FIRST LAST [PROGRAM]

For whoever changes what a call looks at: what one phase leaves (gates that stay open, soft changes after one another,
thousands of changes of a block, writes that are out) is what the next one works over, and a search that is fast over what its
own kind of program makes can be slow over what another kind left. A seed chooses how many blocks there are (1 to 1,024) and of
what size (64 to 4,096 bytes), and how many phases (2 to 20). Each phase chooses its blocks and in which order they come; how
many bytes a change has, from one to a whole block; which patches it comes after, how many (up to 16) and from how near, or that
changes are in groups; after how many changes a gate is opened (3 to 300), on how many patches it depends (up to 64) and when it
is sealed, and whether gates that earlier phases left depend on more; after how many changes up to four blocks are written (20
or 200), how many writes are out at once (1 or 4), and whether what is on disk is forgotten then. The line of a seed says that
of each phase. PROGRAM itself is asked, line by line, which number a patch has and what may be written; then the script is
fixed. N patches are made (16,000), as many in each phase; a phase ends early where there is no room. With --beside a second
program plays the same script: it is to give the same replies, and the line ends in `slow` where PROGRAM takes three times as
long. PROGRAM is the program as `rt run` or `./feather` leaves it; without it `./feather` is used, which builds it once.
"""

import argparse
import os
import random
import sys

from shapes import ROOT, asked, compared
from steady import Guide

# How many lines are asked at once at most: the replies have to fit into a pipe, since they are read after all is written.
TOGETHER = 1000


class Phase:
    """What a phase chooses. Gates, groups and writes come each time after so many changes, or never where that is 0."""

    def __init__(self, dice, blocks, size):
        self.over = dice.sample(range(blocks), min(blocks, dice.choice([1, 2, 3, 8, 64, 1024])))
        self.spans = dice.choice([[1], [1, 2], [8], [64], [size], [1, size], [1, 8, 64], [16]])
        self.after = dice.choice(["none", "last", "near", "any", "own", "gate", "gates", "first", "half", "before", "border"])
        self.width = dice.choice([1, 1, 2, 4, 16])
        self.near = dice.choice([4, 50, 600, 5000])
        self.gates = dice.choice([0, 0, 3, 30, 300])
        self.wide = dice.choice([0, 0, 1, 5, 64])
        self.sealed = dice.choice(["in turn", "later", "never", "at the end", "at random"])
        self.group = dice.choice([0, 0, 0, 4, 20])
        self.writes = dice.choice([0, 0, 0, 20, 200])
        self.flights = dice.choice([1, 1, 4])
        self.order = dice.choice(["rand", "turn", "hot", "one"])
        self.forgets = dice.random() < 0.6
        self.share = dice.choice([1, 1, 0.5, 0.1])
        self.linked = dice.random() < 0.3

    def says(self):
        told = [f"{len(self.over)} {self.order}, bytes {'/'.join(map(str, self.spans))}"]
        if self.group:
            told.append(f"groups of {self.group}")
        elif self.after != "none":
            told.append(f"after {self.width} {self.after}, share {self.share}")
        told.append(f"near {self.near}")
        if self.gates:
            told.append(f"gates every {self.gates}, wide {self.wide}, sealed {self.sealed}")
        elif self.sealed == "later":
            told.append("seals")
        if self.linked:
            told.append("linked")
        if self.writes:
            told.append(f"writes every {self.writes}, {self.flights} out{', forgets' if self.forgets else ''}")
        return "; ".join(told)


class Phases:
    """What a seed chooses, and the script that it makes."""

    def __init__(self, seed, patches, program):
        dice = self.dice = random.Random(seed)
        self.blocks = dice.choice([1, 2, 4, 16, 64, 256, 1024])
        self.size = dice.choice([64, 256, 1024, 4096])
        self.count = dice.choice([2, 4, 8, 20])
        self.patches = patches
        self.words = ["--blocks", str(self.blocks), "--size", str(self.size)]
        self.guide, self.lines, self.some = Guide(program, self.words), [], []
        self.given, self.all, self.of_block = 0, [], [[] for _ in range(self.blocks)]
        self.open, self.out, self.heads, self.head = [], [], [], None
        self.said = []

    def says(self):
        return f"{self.blocks} of {self.size} | " + " | ".join(self.said)

    def line(self, text):
        """A line whose reply nobody waits for."""
        self.some.append(text)
        if len(self.some) == TOGETHER:
            self.ask()

    def ask(self, *lines):
        """What the guide answers to these lines, after those that were not asked yet."""
        asked, self.some = [*self.some, *lines], []
        self.lines += asked
        return self.guide.ask(asked)[len(asked) - len(lines) :]

    def recent(self, numbers, end):
        """One of the last of so many numbers, if there are any."""
        return [numbers[end - 1 - self.dice.randrange(min(self.now.near, end))]] if end else []

    def name(self, block):
        """A patch that a change of the block comes after, if there is one."""
        dice, made, start, way = self.dice, self.all, self.start, self.now.after
        if way == "last":
            return made[-1:]
        if way == "near":
            return self.recent(made, len(made))
        if way == "any":
            return [dice.choice(made)] if made else []
        if way == "own":
            return self.recent(self.of_block[block], len(self.of_block[block]))
        if way == "gate":
            return self.newest
        if way == "gates":
            gates = (self.open + self.mine)[-self.now.near :]
            return [dice.choice(gates)] if gates else []
        if way == "first":
            return [made[dice.randrange(min(8, len(made)))]] if made else []
        if way == "half":
            return [made[len(made) // 2]] if made else []
        if way == "before":
            return self.recent(made, start)
        if way == "border":
            return [made[start - 1]] if start else []
        return []

    def names(self, block):
        """What a change of the block comes after."""
        names = set()
        if self.dice.random() < self.now.share:
            for _ in range(self.now.width):
                names.update(self.name(block))
        return names

    def depend(self, gate, names):
        self.line('{"do":"depend","gate":%d,"on":[%s]}' % (gate, ",".join(map(str, sorted(names)))))

    def seal(self, gate):
        self.line('{"do":"seal","gate":%d}' % gate)

    def gate(self):
        """A gate is opened."""
        self.line('{"do":"gate"}')
        self.given += 1
        self.mine.append(self.given)
        self.newest = [self.given]
        names = set()
        for _ in range(min(self.now.wide, len(self.all))):
            names.update(self.recent(self.all, len(self.all)))
        if names:
            self.depend(self.given, names)
        self.all.append(self.given)

    def gates(self, i):
        """What is done with gates before a change: those of this phase, and those that earlier ones left open."""
        dice, now = self.dice, self.now
        if now.gates and i % now.gates == 0:
            if self.mine and now.sealed == "in turn":
                self.seal(self.mine.pop())
            self.gate()
        if self.mine and now.sealed == "at random" and dice.random() < 0.05:
            self.seal(self.mine.pop(dice.randrange(len(self.mine))))
        if now.linked and self.open and self.all and dice.random() < 0.1:
            self.depend(dice.choice(self.open[-20:]), self.recent(self.all, len(self.all)))

    def close(self):
        """The group that is open is closed, and later changes may come after its tail."""
        if self.head:
            self.line('{"do":"group_close","group":%d}' % self.head)
            self.all.append(self.head + 1)
            self.head = None

    def group(self):
        """A group is opened, half of them after one of the last eight."""
        self.close()
        self.line('{"do":"group"}')
        self.head, self.given = self.given + 1, self.given + 2
        if self.heads and self.dice.random() < 0.5:
            self.line('{"do":"group_after","group":%d,"on":%d}' % (self.head, self.dice.choice(self.heads[-8:])))
        self.heads.append(self.head)

    def block(self, i):
        """The block of the next change."""
        over, order = self.now.over, self.now.order
        if order == "turn":
            return over[i % len(over)]
        if (order == "hot" and self.dice.random() < 0.5) or (order == "one" and i % 5):
            return over[0]
        return over[self.dice.randrange(len(over))]

    def change(self, i):
        """A change; answers whether there was room for it."""
        block = self.block(i)
        length = min(self.size, self.dice.choice(self.now.spans))
        place = '"block":%d,"at":%d,"data":"%s"' % (block, self.dice.randrange(self.size - length + 1), "41" * length)
        if self.now.group:
            if i % self.now.group == 0:
                self.group()
            reply = self.ask('{"do":"group_patch","group":%d,%s}' % (self.head, place))[0]
        else:
            names = sorted(self.names(block))
            after = ',"after":[%s]' % ",".join(map(str, names)) if names else ""
            reply = self.ask('{"do":"patch",%s%s}' % (place, after))[0]
        if reply[0] == "patch":
            self.given = int(reply[1])
            self.all.append(self.given)
            self.of_block[block].append(self.given)
        return reply[:2] != ["refused", "16"]

    def done(self):
        self.line('{"do":"done","ticket":%d}' % self.out.pop(0))

    def write(self):
        """Up to four blocks are written, and what is on disk is forgotten in phases that do so."""
        for _ in range(4):
            block = self.ask('{"do":"pick"}')[0][1]
            if block == "none":
                break
            reply = self.ask('{"do":"write","block":%s}' % block)[0]
            if reply[0] == "flight":
                self.out.append(int(reply[1]))
            if len(self.out) >= self.now.flights:
                self.done()
        if self.now.forgets:
            self.line('{"do":"forget"}')

    def end(self):
        """What is out is done, or some of it, and the group is closed. Gates are sealed, or stay open for the phases that come;
        where they are sealed later, those that earlier phases left are sealed now, and its own stay."""
        while self.out and self.dice.random() < 0.7:
            self.done()
        self.close()
        if self.now.sealed == "never":
            self.open += self.mine
            return
        if self.now.sealed == "later":
            self.open, self.mine = self.mine, self.open
        if self.now.sealed == "at the end":
            self.dice.shuffle(self.mine)
        for gate in self.mine:
            self.seal(gate)

    def phase(self, count):
        self.now = Phase(self.dice, self.blocks, self.size)
        self.said.append(self.now.says())
        self.mine, self.newest, self.start = [], [], len(self.all)
        for i in range(count):
            self.gates(i)
            if not self.change(i):
                break
            if self.now.writes and i % self.now.writes == 0:
                self.write()
        self.end()

    def script(self):
        for _ in range(self.count):
            self.phase(self.patches // self.count)
        self.ask()
        self.guide.close()
        return self.lines


def main():
    args = argparse.ArgumentParser(description=__doc__, formatter_class=argparse.RawDescriptionHelpFormatter)
    args.add_argument("--beside", metavar="PROGRAM", help="a second program, whose replies are to be the same")
    args.add_argument("--patches", type=int, default=16_000, metavar="N", help="how many patches are made")
    args.add_argument("first", type=int, metavar="FIRST", help="the first seed")
    args.add_argument("last", type=int, metavar="LAST", help="the last seed")
    args.add_argument("program", nargs="?", metavar="PROGRAM", default=os.path.join(ROOT, "feather"))
    known = asked(args)
    bad = 0
    for seed in range(known.first, known.last + 1):
        made = Phases(seed, known.patches, known.program)
        lines = made.script()
        bad += not compared(seed, known.program, known.beside, made.words, lines, made.says())
    return 1 if bad else 0


if __name__ == "__main__":
    sys.exit(main())
