#!/usr/bin/env python3
"""How the time of scripts that need a search grows, a quarter, a half and all of them being played.

    benchmarks/growth.py [--beside PROGRAM] [--only NAME[,NAME]] [--best N] [PROGRAM]

`depend` over blocks of two sizes, a chain on one block, one that also comes after many hard changes, and a gate between two
halves of the blocks. For each a line says the processor seconds and the peak memory of all of it, the best of N runs (3),
and the exponent by which the seconds grow from a quarter to all, those of an empty script being taken off first: 1 where a
line costs the same however long the script is. With --beside a second program plays the same scripts, by turns: it is to
give the same replies, and the line ends in `slow` where PROGRAM takes three times as long. PROGRAM is the program as
`rt run` or `./feather` leaves it; without it `./feather` is used, which builds it once.
"""

import argparse
import math
import os
import sys
import tempfile

from calls import Script
from shapes import ROOT, asked, chosen, played


def depend(patches, size):
    """Twenty patches at a time over 256 blocks, a gate that depends on them, and is sealed once a patch comes after it."""
    made = Script(256, size)
    for _ in range(patches // 20):
        few = [made.patch(made.dice.randrange(256), made.dice.randrange(size)) for _ in range(20)]
        gate = made.gate()
        made.line('{"do":"depend","gate":%d,"on":[%s]}' % (gate, ",".join(map(str, few))))
        made.patch(made.dice.randrange(256), made.dice.randrange(size), [gate])
        made.ask("seal", gate=gate)
    return made


def depend_wide(patches):
    """The same over blocks of 4,096 bytes."""
    return depend(patches, 4096)


def depend_narrow(patches):
    """The same over blocks of 64 bytes, where each patch lies over an older one."""
    return depend(patches, 64)


def one_block(patches):
    """A chain on one block."""
    made, last = Script(1), []
    for i in range(patches):
        last = [made.patch(0, i % 4096, last)]
    return made


def soft_chain(patches):
    """A chain on one block, each also after one of as many hard changes of 100 others."""
    made, last = Script(101), []
    hard = [made.patch(1 + i % 100, i // 100 % 4096) for i in range(patches // 2)]
    for i in range(patches // 2):
        last = [made.patch(0, i % 4096, [*last, hard[i]])]
    return made


def wide_gate(patches):
    """A gate over all patches of one half of 128 blocks, below each patch on the other half."""
    made = Script(128)
    under = [made.patch(i % 64, i // 64 % 4096) for i in range(patches // 2)]
    gate = made.sealed(under)
    for i in range(patches // 2):
        made.patch(64 + i % 64, i // 64 % 4096, [gate])
    return made


SHAPES = {depend_wide: 60_000, depend_narrow: 60_000, one_block: 60_000, soft_chain: 60_000, wide_gate: 60_000}


def best_of(times, programs, made):
    """For each program the best seconds of so many runs by turns, the peak, and a sum of the replies."""
    with tempfile.NamedTemporaryFile("w", suffix=".jsonl") as script:
        script.write("\n".join([*made.lines, '{"do":"stat"}']) + "\n")
        script.flush()
        runs = [[played(program, made.words, script.name) for program in programs] for _ in range(times)]
    return [(min(run[0] for run in of), max(run[1] for run in of), of[0][2]) for of in zip(*runs)]


def grown(quarter, whole, start):
    """The exponent of growth."""
    first, last = quarter - start, whole - start
    return math.log(last / first, 4) if 0 < first < last else 0


def row(shape, patches, programs, times):
    """Prints a line for the shape, and answers whether all is well."""
    start = best_of(times, programs, Script(*map(int, shape(40).words[1::2])))
    few, some, whole = (best_of(times, programs, shape(patches // part)) for part in (4, 2, 1))
    says = "; beside ".join(
        f"{all_of[0]:.3f} s, {all_of[1]:.0f} MB, n^{grown(part[0], all_of[0], none[0]):.2f}"
        for none, part, all_of in zip(start, few, whole)
    )
    ended = all(of[0][2] for of in (few, some, whole))
    well = ended and all(other[2] == of[0][2] for of in (few, some, whole) for other in of)
    wrong = "" if well else "; REPLIES DIFFER" if ended else "; FAILED"
    slow = len(programs) > 1 and whole[0][0] > 3 * whole[1][0]
    print(f"{shape.__name__}: {says}{wrong}{'; slow' if slow else ''}", flush=True)
    return well


def main():
    args = argparse.ArgumentParser(description=__doc__, formatter_class=argparse.RawDescriptionHelpFormatter)
    args.add_argument("--beside", metavar="PROGRAM", help="a second program, whose replies are to be the same")
    args.add_argument("--only", metavar="NAME[,NAME]", help=", ".join(shape.__name__ for shape in SHAPES))
    args.add_argument("--best", type=int, default=3, metavar="N", help="the best of so many runs")
    args.add_argument("program", nargs="?", metavar="PROGRAM", default=os.path.join(ROOT, "feather"))
    known = asked(args)
    programs = [known.program, *([known.beside] if known.beside else [])]
    bad = 0
    for shape in chosen(args, known.only, SHAPES):
        bad += not row(shape, SHAPES[shape], programs, known.best)
    return 1 if bad else 0


if __name__ == "__main__":
    sys.exit(main())
