#!/usr/bin/env python3
"""Scripts of calls again and again over much that is not on disk, and the processor seconds that `feather play` takes.

    benchmarks/calls.py [--beside PROGRAM] [--only NAME[,NAME]] [PROGRAM]

For whoever changes what a call looks at: `forget` after each write, a write that is refused each time, a write that leaves
30,000 changes of its block out, groups that are put after one another before they have a change or over thousands that wait
for a gate, patches after old ones where others between were forgotten. What looks at all that is there once a call is slow here, and nowhere else. With
--beside a second program plays the same script: it is to give the same replies, and the line ends in `slow` where PROGRAM
takes three times as long. PROGRAM is the program as `rt run` or `./feather` leaves it; without it `./feather` is used,
which builds it once.
"""

import argparse
import os
import random
import sys

from shapes import ROOT, asked, chosen, compared


class Script:
    """The lines so far, how many numbers were given, and the ticket of the last write."""

    def __init__(self, blocks, size=4096, resident=None):
        self.dice, self.lines, self.given, self.ticket = random.Random(1), [], 0, 0
        self.words = ["--blocks", str(blocks), "--size", str(size)]
        if resident:
            self.words += ["--resident", str(resident)]

    def line(self, text):
        self.lines.append(text)

    def patch(self, block, at, after=()):
        names = ",".join(map(str, sorted(set(after))))
        self.line('{"do":"patch","block":%d,"at":%d,"data":"41"%s}' % (block, at, ',"after":[%s]' % names if names else ""))
        self.given += 1
        return self.given

    def empty(self, after):
        self.line('{"do":"empty","after":[%s]}' % ",".join(map(str, after)))
        self.given += 1
        return self.given

    def gate(self):
        self.line('{"do":"gate"}')
        self.given += 1
        return self.given

    def sealed(self, names):
        """A gate over the names, 64 a line, which is sealed then."""
        gate = self.gate()
        for first in range(0, len(names), 64):
            few = ",".join(map(str, names[first : first + 64]))
            self.line('{"do":"depend","gate":%d,"on":[%s]}' % (gate, few))
        self.ask("seal", gate=gate)
        return gate

    def depend(self, gate, name):
        self.line('{"do":"depend","gate":%d,"on":[%d]}' % (gate, name))

    def ask(self, call, **members):
        self.line('{"do":"%s"%s}' % (call, "".join(',"%s":%d' % it for it in members.items())))

    def write(self, block):
        """A write that is not refused, and its completion."""
        self.ask("write", block=block)
        self.ticket += 1
        self.ask("done", ticket=self.ticket)

    def held(self, count, block=0, blocks=1):
        """So many changes behind an open gate."""
        gate = self.gate()
        for i in range(count):
            self.patch(block + i % blocks, i // blocks % 2048, [gate])

    def group(self, after=None):
        self.ask("group")
        head, self.given = self.given + 1, self.given + 2
        if after:
            self.ask("group_after", group=head, on=after)
        return head

    def member(self, group, block, at):
        self.line('{"do":"group_patch","group":%d,"block":%d,"at":%d,"data":"41"}' % (group, block, at))
        self.given += 1


def forget_each():
    """`forget` after each write, over 40,000 changes of 4,096 blocks."""
    made = Script(4096)
    blocks = [i % 4096 for i in range(40_000)]
    made.dice.shuffle(blocks)
    for block in blocks:
        made.patch(block, made.dice.randrange(4096))
    for block in range(1000):
        made.write(block)
        made.ask("forget")
    return made


def forget_few():
    """A patch, its write and `forget`, over 3,000 changes that wait for a gate."""
    made = Script(128)
    made.held(3000, 0, 64)
    for i in range(20_000):
        made.patch(64 + i % 64, i % 4096)
        made.write(64 + i % 64)
        made.ask("forget")
    return made


def forget_nothing():
    """`forget` after each tenth patch, while nothing is on disk."""
    made = Script(64)
    for i in range(60_000):
        made.patch(made.dice.randrange(64), made.dice.randrange(4096), [made.dice.randint(max(1, i - 200), i)] if i else [])
        if i % 10 == 0:
            made.ask("forget")
    return made


def after_old_ones():
    """Half of 60,000 changes forgotten, then patches after any old one."""
    made = Script(64)
    for _ in range(60_000):
        made.patch(made.dice.randrange(64), made.dice.randrange(4096))
    for block in range(32):
        made.write(block)
    made.ask("forget")
    for _ in range(30_000):
        made.patch(made.dice.randrange(64), made.dice.randrange(4096), [made.dice.randint(1, made.given)])
    return made


def places():
    """`place` of any patch, half of 60,000 being forgotten."""
    made = Script(64)
    for _ in range(60_000):
        made.patch(made.dice.randrange(64), made.dice.randrange(4096))
    for block in range(32):
        made.write(block)
    made.ask("forget")
    for _ in range(100_000):
        made.ask("place", patch=made.dice.randint(1, 60_000))
    return made


def write_beside():
    """A new change of a block written, 30,000 others of which wait for a gate."""
    made = Script(1)
    made.held(30_000)
    for i in range(300):
        made.patch(0, 2048 + i % 2048)
        made.write(0)
    return made


def refused():
    """A write refused each time for a hard change, beside 30,000 that wait for a gate."""
    made = Script(2)
    made.held(30_000)
    made.patch(0, 3000, [made.patch(1, 0)])
    made.patch(0, 3001)
    for _ in range(20_000):
        made.ask("write", block=0)
    return made


def refused_in_the_middle():
    """A write refused each time for a hard change, beside 10,000 before it that wait for a gate and 10,000 after it."""
    made = Script(2)
    made.held(10_000)
    made.patch(0, 3000, [made.patch(1, 0)])
    made.patch(0, 3001)
    made.held(10_000)
    for _ in range(20_000):
        made.ask("write", block=0)
    return made


def chosen_in_the_middle():
    """`choose` of a block with one change that may be written, in the middle of 30,000 that wait for a gate."""
    made = Script(1)
    made.held(15_000)
    made.patch(0, 3000)
    made.held(15_000)
    for _ in range(3000):
        made.ask("choose", block=0)
    return made


def written_at_both_ends():
    """A block with 4,000 changes behind a gate each: the gate of the oldest is sealed, and it is written with a newest one."""
    made, gates = Script(1), []

    def wait(at):
        gates.append(made.gate())
        made.patch(0, at, [gates[-1]])

    for at in range(4000):
        wait(at)
    for turn in range(10_000):
        made.ask("seal", gate=gates[turn])
        made.patch(0, 4095)
        made.write(0)
        wait(turn % 4000)
        if turn % 500 == 499:
            made.ask("forget")
    return made


def superblock_that_waits():
    """A superblock that waits for one block, while it comes after 20,000 changes of others that are written; then 1,800 after it."""
    made = Script(4096)
    first, last = made.patch(1, 0), None
    last = made.patch(0, 0, [first])
    over = made.sealed([made.patch(1100 + at, 0) for at in range(1800)])
    for at in range(10_000):
        made.patch(3000 + at % 1000, at // 1000, [over])
    for at in range(20_000):
        block = 2 + at % 1000
        last = made.patch(0, 1 + at % 4000, [made.patch(block, 0)])
        made.write(block)
        if at % 2000 == 1999:
            made.ask("forget")
    for at in range(1800):
        made.patch(1100 + at, 1, [last])
    return made


def picks():
    """`pick` while 4,000 blocks wait for a gate and one is written."""
    made = Script(4096)
    made.held(4000, 0, 4000)
    for i in range(20_000):
        made.patch(4095, i % 4096)
        made.ask("pick")
        made.write(4095)
        made.ask("pick")
    return made


def full():
    """A block that finds no place in memory, 4,000 others being dirty."""
    made = Script(4096, 64, 4000)
    made.held(4000, 0, 4000)
    for i in range(20_000):
        made.ask("show", block=4000 + i % 96)
    return made


def forget_one():
    """`forget` after each write of a block or two, over 60,000 changes: what stays is far more than what goes."""
    made = Script(4096, 64)
    for i in range(60_000):
        made.patch(i % 4096, i // 4096 % 64)
    for i in range(4_000):
        made.write(i * 1237 % 4096)
        made.ask("forget")
        made.patch(i * 1237 % 4096, 0)
    return made


def choose_in_flight():
    """`choose` of a block whose write is out, over 1,000 changes that may follow it and as many behind it."""
    made = Script(4)
    first = made.patch(0, 0)
    made.ask("write", block=0)
    for i in range(1_000):
        made.patch(0, 1 + i)
        made.patch(0, 2_048 + i, [first])
    for i in range(2_000):
        made.ask("choose", block=0)
    return made


def one_clean():
    """A block that is read in the place of the one clean block, 4,000 others being dirty."""
    made = Script(4096, 64, 4001)
    made.held(4000, 0, 4000)
    for i in range(20_000):
        made.ask("show", block=4000 + i % 96)
    return made


def groups_ahead():
    """2,000 groups put after one another first, then ten changes into each."""
    made = Script(64)
    groups = []
    for _ in range(2000):
        groups.append(made.group())
    for before, group in zip(groups, groups[1:]):
        made.ask("group_after", group=group, on=before)
    for i in range(20_000):
        made.member(groups[i // 10], made.dice.randrange(64), made.dice.randrange(4096))
    return made


def groups_of_one_block():
    """A thousand groups of twenty in a chain, all of one block."""
    made = Script(1)
    group = None
    for g in range(1000):
        group = made.group(group)
        for i in range(20):
            made.member(group, 0, (20 * g + i) % 4096)
        made.ask("group_close", group=group)
    return made


def groups_behind_a_chain():
    """A thousand groups of one change, over the end of a chain of 10,000 behind an open gate."""
    made = Script(2)
    last = made.gate()
    for i in range(10_000):
        last = made.patch(0, i % 4096, [last])
    for _ in range(1000):
        group = made.group()
        made.member(group, 0, (10_000 - 1) % 4096)
        made.ask("group_close", group=group)
    return made


def group_before_another():
    """10,000 changes of a group that another comes after, over a block with 20,000 others."""
    made = Script(1)
    for i in range(20_000):
        made.patch(0, i % 4096)
    first = made.group()
    made.group(first)
    for i in range(10_000):
        made.member(first, 0, 7 * i % 4096)
    return made


def depend_below_many():
    """A gate that 10,000 patches directly come after gains 2,000 others, behind another gate."""
    made = Script(2)
    gates = [made.gate(), made.gate()]
    behind = [made.patch(i % 2, i // 2 % 4096, [gates[i % 2]]) for i in range(20_000)]
    for _ in range(2000):
        made.depend(gates[0], made.dice.choice(behind[1::2]))
    return made


def cycles():
    """A cycle refused again and again, in a chain of 3,000 open gates."""
    made = Script(1)
    gates = [made.gate() for _ in range(3000)]
    for before, gate in zip(gates, gates[1:]):
        made.depend(gate, before)
    for _ in range(3000):
        made.depend(made.dice.choice(gates[:1500]), made.dice.choice(gates[1500:]))
    return made


def cycle_in_a_crowd():
    """A cycle refused 500 times, where each of 6,000 changes comes after four of 600 open gates, and 20,000 after those."""
    made = Script(1, 256)
    gates = [made.gate() for _ in range(600)]
    recent = []
    for i in range(6_000):
        if i % 300 == 0 and recent:
            gates.append(made.gate())
            for name in made.dice.sample(recent[-600:], 60):
                made.depend(gates[-1], name)
        recent.append(made.patch(0, made.dice.randrange(256), made.dice.sample(gates[-600:], 4)))
    for i in range(20_000):
        recent.append(made.patch(0, made.dice.randrange(240), recent[-1 - made.dice.randrange(4) :][:1]))
        if i % 40 == 0:
            made.depend(made.dice.choice(gates[-20:]), made.dice.choice(recent[-600:]))
    return made


def cycle_over_a_chain():
    """A cycle refused again and again, at or near the end of a chain of 20,000 patches over the gate."""
    made = Script(64)
    gate = made.gate()
    chain = [gate]
    for i in range(20_000):
        chain.append(made.patch(i % 64, i // 64 % 4096, [chain[-1]]))
    for i in range(5000):
        made.depend(gate, made.dice.choice(chain[-100:]) if i % 2 else chain[-1])
    return made


def hot():
    """Half of the changes on one block, each after one of the last 3,000 others."""
    made = Script(17)
    others = []
    for _ in range(60_000):
        block = 0 if made.dice.random() < 0.5 else made.dice.randint(1, 16)
        few = others[-3000:] if block == 0 else others
        number = made.patch(block, made.dice.randrange(4096), [made.dice.choice(few)] if few else [])
        if block:
            others.append(number)
    return made


SHAPES = [
    forget_each, forget_few, forget_nothing, after_old_ones, places, write_beside, refused, refused_in_the_middle,
    chosen_in_the_middle, written_at_both_ends, superblock_that_waits, forget_one, choose_in_flight, picks, full, one_clean,
    groups_ahead, groups_of_one_block, groups_behind_a_chain, group_before_another, depend_below_many, cycles,
    cycle_in_a_crowd, cycle_over_a_chain, hot,
]


def main():
    args = argparse.ArgumentParser(description=__doc__, formatter_class=argparse.RawDescriptionHelpFormatter)
    args.add_argument("--beside", metavar="PROGRAM", help="a second program, whose replies are to be the same")
    args.add_argument("--only", metavar="NAME[,NAME]", help=", ".join(shape.__name__ for shape in SHAPES))
    args.add_argument("program", nargs="?", metavar="PROGRAM", default=os.path.join(ROOT, "feather"))
    known = asked(args)
    bad = 0
    for shape in chosen(args, known.only, SHAPES):
        made = shape()
        name = f"{shape.__name__}, {len(made.lines)} lines"
        bad += not compared(name, known.program, known.beside, made.words, [*made.lines, '{"do":"stat"}'])
    return 1 if bad else 0


if __name__ == "__main__":
    sys.exit(main())
