#!/usr/bin/env python3
"""Scripts of a file system at work, made at random, one a seed, and the processor seconds that `feather play` takes.

    benchmarks/steady.py [--beside PROGRAM] [--patches N] [--flights N] FIRST LAST [PROGRAM]

For whoever changes what a call looks at: transactions come one after another, what `pick` names is written while more than
so many patches are not on disk, and every few transactions what is on disk is forgotten. So patches land in any order, heads
between others are gone, and what was known of a way is gone at each write. A seed chooses how many blocks there are, how many
hot ones, how long the backlog is, how a transaction is put together (patches alone, an empty patch after them, a gate, a
group, or by turns) and after which one it comes, and whether a superblock is overwritten after it. PROGRAM itself is asked,
line by line, what may be written; then the script is fixed. N patches are made (12,000). With --flights so many writes are
out at once (1), and the oldest is done as one more is made. With --beside a second program plays
the same script: it is to give the same replies, and the line ends in `slow` where PROGRAM takes three times as long. PROGRAM
is the program as `rt run` or `./feather` leaves it; without it `./feather` is used, which builds it once.
"""

import argparse
import os
import random
import subprocess
import sys

from shapes import ROOT, asked, compared

SIZE = 256


class Guide:
    """A program that answers line by line."""

    def __init__(self, program, words):
        self.child = subprocess.Popen([program, "play", *words], stdin=subprocess.PIPE, stdout=subprocess.PIPE)

    def ask(self, lines):
        try:
            self.child.stdin.write("".join(line + "\n" for line in lines).encode())
            self.child.stdin.flush()
        except BrokenPipeError:
            sys.exit(f"{self.child.args[0]} stopped while it was asked what may be written")
        replies = [self.child.stdout.readline().decode().split() for _ in lines]
        if not all(replies):
            sys.exit(f"{self.child.args[0]} gave no reply when it was asked what may be written")
        return replies

    def close(self):
        self.child.stdin.close()
        self.child.wait()


class Work:
    """What a seed chooses, and the script that it makes."""

    def __init__(self, seed, patches, program, flights=1):
        dice = self.dice = random.Random(seed)
        self.blocks = dice.choice([4, 16, 64, 256, 1024])
        self.backlog = dice.choice([50, 300, 2000, 8000])
        self.forgets = dice.choice([1, 5, 50])
        self.form = dice.choice(["plain", "commit", "group", "mixed", "gate"])
        self.hot = dice.choice([0, 1, 1, 2, 4])
        self.each = dice.choice([2, 3, 5, 10])
        self.linked = dice.choice([0, 0.1, 0.3, 0.7, 1])
        self.old = dice.choice([1, 5, 50, 500])
        self.places = dice.choice([8, 64, 250])
        self.chained = dice.random() < 0.3
        self.patches = patches
        self.words = ["--blocks", str(self.blocks), "--size", str(SIZE)]
        self.guide, self.lines, self.some = Guide(program, self.words), [], []
        self.given, self.ticket, self.ends, self.groups = 0, 0, [], []
        self.flights, self.out = flights, []

    def says(self):
        return (
            f"blocks {self.blocks}, hot {self.hot}; backlog {self.backlog}, forgets every {self.forgets}; {self.each} patches each, "
            f"{self.form}, {'one after another, ' if self.chained else ''}after one of {self.old} ends before: {self.linked}; places {self.places}"
        )

    def line(self, text):
        self.some.append(text)

    def ask(self, *lines):
        """What the guide answers to these lines, after those that were not asked yet."""
        asked, self.some = [*self.some, *lines], []
        self.lines += asked
        return self.guide.ask(asked)[len(asked) - len(lines) :]

    def block(self):
        if self.hot and self.dice.random() < 0.4:
            return self.dice.randrange(min(self.hot, self.blocks))
        return self.dice.randrange(self.blocks)

    def patch(self, block, at, after):
        tail = ',"after":[%s]' % ",".join(map(str, after)) if after else ""
        self.line('{"do":"patch","block":%d,"at":%d,"data":"4142"%s}' % (block, at, tail))
        self.given += 1
        return self.given

    def earlier(self):
        """The end of an earlier transaction, or none."""
        if self.ends and self.dice.random() < self.linked:
            return [self.ends[-1 - self.dice.randrange(min(len(self.ends), self.old))]]
        return []

    def group(self):
        self.line('{"do":"group"}')
        head, self.given = self.given + 1, self.given + 2
        if self.groups and self.dice.random() < max(self.linked, 0.3):
            on = self.groups[-1 - self.dice.randrange(min(len(self.groups), self.old))]
            self.line('{"do":"group_after","group":%d,"on":%d}' % (head, on))
        self.groups.append(head)
        for _ in range(self.each):
            words = (head, self.block(), self.dice.randrange(self.places))
            self.line('{"do":"group_patch","group":%d,"block":%d,"at":%d,"data":"4142"}' % words)
            self.given += 1
        self.line('{"do":"group_close","group":%d}' % head)
        self.ends.append(head + 1)

    def transaction(self, form):
        if form == "gate":
            self.line('{"do":"gate"}')
            self.given += 1
            gate = self.given
        numbers = []
        for _ in range(self.each):
            after = numbers[-1:] if self.chained and numbers else self.earlier()
            numbers.append(self.patch(self.block(), self.dice.randrange(self.places), after))
        if form == "commit":
            self.line('{"do":"empty","after":[%s]}' % ",".join(map(str, numbers)))
            self.given += 1
            self.ends.append(self.given)
        elif form == "gate":
            self.line('{"do":"depend","gate":%d,"on":[%s]}' % (gate, ",".join(map(str, numbers))))
            self.line('{"do":"seal","gate":%d}' % gate)
            self.ends.append(gate)
        else:
            self.ends.append(numbers[-1])
        if self.hot and self.dice.random() < 0.5:
            self.ends.append(self.patch(self.dice.randrange(min(self.hot, self.blocks)), self.dice.randrange(8), self.ends[-1:]))

    def done(self):
        self.ask('{"do":"done","ticket":%d}' % self.out.pop(0))

    def write(self, most):
        for _ in range(most):
            block = self.ask('{"do":"pick"}')[0][1]
            if block != "none":
                self.ticket += 1
                self.out.append(self.ticket)
                self.ask('{"do":"write","block":%s}' % block)
            elif not self.out:
                return
            if block == "none" or len(self.out) >= self.flights:
                self.done()

    def script(self):
        for turn in range(self.patches // self.each):
            form = self.dice.choice(["plain", "commit", "group", "gate"]) if self.form == "mixed" else self.form
            if form == "group":
                self.group()
            else:
                self.transaction(form)
            live = int(self.ask('{"do":"stat"}')[0][4])
            if live > self.backlog:
                self.write(min(8, 1 + (live - self.backlog) // 4))
            if turn % self.forgets == 0:
                self.ask('{"do":"forget"}')
        self.guide.close()
        return self.lines


def main():
    args = argparse.ArgumentParser(description=__doc__, formatter_class=argparse.RawDescriptionHelpFormatter)
    args.add_argument("--beside", metavar="PROGRAM", help="a second program, whose replies are to be the same")
    args.add_argument("--patches", type=int, default=12_000, metavar="N", help="how many patches are made")
    args.add_argument("--flights", type=int, default=1, metavar="N", help="how many writes are out at once (1)")
    args.add_argument("first", type=int, metavar="FIRST", help="the first seed")
    args.add_argument("last", type=int, metavar="LAST", help="the last seed")
    args.add_argument("program", nargs="?", metavar="PROGRAM", default=os.path.join(ROOT, "feather"))
    known = asked(args)
    bad = 0
    for seed in range(known.first, known.last + 1):
        work = Work(seed, known.patches, known.program, known.flights)
        bad += not compared(seed, known.program, known.beside, work.words, work.script(), work.says())
    return 1 if bad else 0


if __name__ == "__main__":
    sys.exit(main())
