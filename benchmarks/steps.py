#!/usr/bin/env python3
"""One script for each step of the search for a grade that no other benchmark misses, and the processor seconds that
`feather play` takes.

    benchmarks/steps.py [--beside PROGRAM] [--only NAME[,NAME]] [PROGRAM]

For whoever changes the search: without its step a script takes several times as long (docs/grades.md says which, and what
shows the other steps). With --beside a second program plays the same script: it is to give the same replies, and the line
ends in `slow` where PROGRAM takes three times as long. PROGRAM is the program as `rt run` or `./feather` leaves it;
without it `./feather` is used, which builds it once.
"""

import argparse
import os
import sys

from calls import Script
from shapes import ROOT, asked, chosen, compared

MANY = 20_000


def ring_back():
    """Each patch after the newest of the next block, downward over 4,096 blocks: a way back goes once around all of them."""
    made, newest = Script(4096), {}
    for turn in range(MANY):
        block = -turn % 4096
        above = newest.get((block + 1) % 4096)
        newest[block] = made.patch(block, turn % 4096, [above] if above else [])
    return made


def gates_in_a_chain():
    """Each patch after a gate over the patch before it, on a random block of 4,096."""
    made, last = Script(4096), None
    while made.given < MANY:
        after = [made.sealed([last])] if last else []
        last = made.patch(made.dice.randrange(4096), made.dice.randrange(4096), after)
    return made


def two_families():
    """By turns of two kinds: 1,000 patches on random blocks of 256, after a gate over the last 1,000 of their kind."""
    made, last = Script(256), [[], []]
    while made.given < MANY:
        for kind in (0, 1):
            after = [made.sealed(last[kind])] if last[kind] else []
            last[kind] = [made.patch(made.dice.randrange(256), made.dice.randrange(4096), after) for _ in range(1000)]
    return made


def three_blocks():
    """Three blocks by turns, each patch after the newest of the block before; one in five of the first after the third."""
    made, newest = Script(3), {}
    while made.given < MANY * 3 // 2:
        for block in (0, 1, 2):
            back = block or (2 in newest and made.dice.random() < 0.2)
            newest[block] = made.patch(block, made.dice.randrange(4096), [newest[(block - 1) % 3]] if back else [])
    return made


def drift(anew):
    """Groups of ten changes over 256 blocks, gone through slowly, each group after the one before but for so many in ten;
    one change in five is in no group, and after three of the 50 before it."""
    made, tail, numbers = Script(256), None, []
    while made.given < MANY:
        group = made.group(None if made.dice.randrange(10) < anew else tail)
        for _ in range(10):
            block = (len(numbers) // 7 + made.dice.randrange(3)) % 256
            at = made.dice.randrange(4096)
            if made.dice.random() < 0.8:
                made.member(group, block, at)
            else:
                made.patch(block, at, [made.dice.choice(numbers[-50:]) for _ in range(3)] if numbers else [])
            numbers.append(made.given)
        made.ask("group_close", group=group)
        tail = group
    return made


def groups_in_a_chain():
    """A drift of groups, all in one chain."""
    return drift(0)


def chains_of_groups():
    """A drift of groups, of which one in five begins a chain."""
    return drift(2)


def deep_below():
    """Changes of a block that has 4,000, each after one of the upper half of 10,000 empty patches in a chain."""
    made = Script(4096)
    last = made.patch(1, 0)
    for at in range(4000):
        made.patch(0, at)
    chain = [last := made.empty([last]) for _ in range(10_000)]
    for at in range(MANY // 4):
        made.patch(0, at % 4096, [made.dice.choice(chain[5000:])])
    return made


def tower():
    """A chain over 4,000 blocks, and after each of it a change of a block over which 20,000 empty patches stand."""
    made, last = Script(4096), []
    first = made.patch(0, 0)
    for _ in range(MANY):
        made.empty([first])
    for step in range(1, 4000):
        last = [made.patch(step, 0, last)]
        made.patch(0, step, last)
    return made


def behind_a_gate():
    """15,000 patches over 64 blocks behind a gate, then as many over 64 others, each after one of the 5,000 before."""
    made, some = Script(4096), []
    first = made.patch(4000, 0)
    gate = made.gate()
    made.depend(gate, first)
    for turn in range(30_000):
        if turn == 15_000:
            made.ask("seal", gate=gate)
        near = some[-50:] if turn < 15_000 else some[-5000:]
        block = made.dice.randrange(64) + (1 if turn < 15_000 else 100)
        some.append(made.patch(block, made.dice.randrange(4096), [made.dice.choice(near) if near else gate]))
    return made


def deep_over():
    """Changes of a block over which 45,000 empty patches stand in a chain, each after one of another chain of 8,000."""
    made = Script(4096)
    other, last = made.patch(1, 0), made.patch(0, 0)
    for _ in range(45_000):
        last = made.empty([last])
    chain = [other := made.empty([other]) for _ in range(8000)]
    for at in range(1, 4000):
        made.patch(0, at, [made.dice.choice(chain[4000:])])
    return made


def many_needs():
    """20,000 changes of a block, each after an empty patch of its own, then as many after one change of another block."""
    made = Script(4096)
    under = [made.patch(block, 0) for block in range(10, 2010)]
    one = made.patch(5, 0)
    for turn in range(MANY):
        made.patch(0, turn % 4096, [made.empty([under[turn % 2000]])])
    for turn in range(MANY):
        made.patch(0, turn % 4096, [one])
    return made


def behind_gate(made, blocks, count):
    """So many soft changes of these blocks, which were made behind a gate that is sealed then."""
    gate = made.gate()
    soft = [made.patch(made.dice.choice(blocks), made.dice.randrange(4096), [gate]) for _ in range(count)]
    made.ask("seal", gate=gate)
    return soft


def block_of_soft_needs():
    """A block that needs 32 others, then 12,000 soft changes; and 16,000 changes of the 32, each after any change of it."""
    made = Script(128)
    below = [made.patch(10 + at, 0) for at in range(32)]
    soft = behind_gate(made, range(64, 128), 12_000)
    over = [made.patch(0, made.dice.randrange(4096), [it]) for it in below + soft]
    for _ in range(16_000):
        made.patch(10 + made.dice.randrange(32), made.dice.randrange(4096), [made.dice.choice(over)])
    return made


def block_beyond_soft_needs():
    """As that, but of 2,000 others, which a third block needs, one of 200 changes of which the block needs."""
    made = Script(4096)
    below = [made.patch(1000 + at, 0) for at in range(2000)]
    between = [made.patch(7, made.dice.randrange(4096), [it]) for it in below][:200]
    soft = behind_gate(made, range(64, 128), 12_000)
    over = [made.patch(0, made.dice.randrange(4096), [it]) for it in between + soft]
    for _ in range(16_000):
        made.patch(1000 + made.dice.randrange(2000), made.dice.randrange(4096), [made.dice.choice(over)])
    return made


def superblock_waits():
    """A patch of one block, one of the superblock after it, and a write of the first; what is on disk is forgotten at times."""
    made = Script(4096)
    for turn in range(MANY // 2):
        made.patch(0, turn % 4096, [made.patch(5, turn % 4096)])
        made.write(5)
        if turn % 50 == 0:
            made.ask("forget")
    return made


def gate_each():
    """10,000 gates in a chain, each over three patches after the gate before, and a patch of the superblock after each."""
    made, last = Script(4096), []
    for turn in range(MANY // 2):
        gate = made.gate()
        for _ in range(3):
            made.depend(gate, made.patch(10 + made.dice.randrange(200), made.dice.randrange(4096), last))
        made.ask("seal", gate=gate)
        last = [gate]
        made.patch(0, turn % 4096, last)
    return made


def joined_so(blocks, width, times, after):
    """So many times so many changes, which a tree of empty patches joins two by two, and so many changes after that."""
    made = Script(blocks, 512)

    def anywhere(after):
        return made.patch(made.dice.randrange(blocks), made.dice.randrange(512), after)

    for _ in range(times):
        row = [anywhere([]) for _ in range(width)]
        while len(row) > 1:
            row = [made.empty(row[at : at + 2]) for at in range(0, len(row), 2)]
        for _ in range(after):
            anywhere(row)
    return made


def joined_by_trees():
    """A thousand times sixteen changes, which a tree of empty patches joins two by two, and sixteen changes after that."""
    return joined_so(1024, 16, 1000, 16)


def joined_by_wide_trees():
    """Over 128 blocks, 250 times sixty-four changes, which such a tree joins, and sixty-four after that."""
    return joined_so(128, 64, 250, 64)


def joined_for_few():
    """A thousand times thirty-two changes, which such a tree joins, and four after that."""
    return joined_so(1024, 32, 1000, 4)


def joined_over_many():
    """The same over 4,096 blocks: no step's script, but among the slowest here."""
    return joined_so(4096, 32, 1000, 4)


def fan_of_own():
    """A gate over 10,000 changes of a block that were behind another, and 5,000 that each come after it and one of them."""
    made = Script(2)
    first = made.gate()
    deep = [made.patch(1, at, [first]) for at in range(4)]
    own = [made.patch(0, made.dice.randrange(4096), [first, made.dice.choice(deep)]) for _ in range(MANY // 2)]
    made.ask("seal", gate=first)
    gate = made.sealed(own)
    for _ in range(MANY // 4):
        made.patch(0, made.dice.randrange(4096), [gate, made.dice.choice(own)])
    return made


def fan_of_others():
    """A gate over 10,000 changes of other blocks, and 5,000 changes that each come after it and one of 5,000 behind another."""
    made = Script(16)
    gate = made.sealed([made.patch(1 + turn % 15, made.dice.randrange(4096)) for turn in range(MANY // 2)])
    first = made.gate()
    own = [made.patch(0, made.dice.randrange(4096), [first]) for _ in range(MANY // 4)]
    made.ask("seal", gate=first)
    for below in own:
        made.patch(0, made.dice.randrange(4096), [gate, below])
    return made


def fan_in_flight():
    """A gate over 20,000 changes of a block that is being written; every second of 10,000 more comes after another block's over it."""
    made = Script(3)
    own = [made.patch(0, made.dice.randrange(4096)) for _ in range(MANY)]
    gate = made.sealed(own)
    made.ask("write", block=0)
    over = made.patch(1, 0, [gate])
    for turn in range(MANY // 2):
        made.patch(0, made.dice.randrange(4096), [gate, made.dice.choice(own)] if turn % 2 else [over])
    return made


SHAPES = [
    ring_back, gates_in_a_chain, two_families, three_blocks, groups_in_a_chain, chains_of_groups, deep_below, tower,
    behind_a_gate, gate_each, deep_over, many_needs, block_of_soft_needs, block_beyond_soft_needs,
    superblock_waits, joined_by_trees, joined_by_wide_trees, joined_for_few, joined_over_many, fan_of_own, fan_of_others,
    fan_in_flight,
]


def main():
    args = argparse.ArgumentParser(description=__doc__, formatter_class=argparse.RawDescriptionHelpFormatter)
    args.add_argument("--beside", metavar="PROGRAM", help="a second program, whose replies are to be the same")
    args.add_argument("--only", metavar="NAME[,NAME]", help=", ".join(shape.__name__ for shape in SHAPES))
    args.add_argument("program", nargs="?", metavar="PROGRAM", default=os.path.join(ROOT, "feather"))
    known = asked(args)
    bad = 0
    for shape in chosen(args, known.only, SHAPES):
        made = shape()
        name = f"{shape.__name__}, {len(made.lines)} lines"
        bad += not compared(name, known.program, known.beside, made.words, [*made.lines, '{"do":"stat"}'])
    return 1 if bad else 0


if __name__ == "__main__":
    sys.exit(main())
