#!/usr/bin/env python3
"""Processor microseconds a line and peak memory of `feather play` over made-up scripts, at n, 2n and 4n lines.

    benchmarks/lines.py [PROGRAM]

PROGRAM is the program as `rt run` or `./feather` leaves it; without it `./feather` is used, which builds it once.
The last column is the exponent of growth of the time between n and 4n lines: 1 where a line costs the same however long
the script is.
"""

import argparse
import json
import math
import os
import random
import shutil
import subprocess
import sys
import tempfile

ROOT = os.path.dirname(os.path.dirname(os.path.abspath(__file__)))


def patch(block, at, data, after=()):
    return {"do": "patch", "block": block, "at": at, "data": data, "after": list(after)}


def chain(lines):
    """Each patch comes after the one before it, on one block."""
    for i in range(lines):
        yield patch(0, i % 4096, "41", [i] if i else [])


def wide_chain(lines):
    """Each patch comes after the one before it, over 64 blocks in turn."""
    for i in range(lines):
        yield patch(i % 64, i // 64 % 4096, "41", [i] if i else [])


def fan(lines):
    """Each patch waits for one open gate, over 64 blocks in turn."""
    yield {"do": "gate"}
    for i in range(lines - 1):
        yield patch(i % 64, i // 64 % 4096, "41", [1])


def churn(lines):
    """A patch a time over 4,096 blocks, each after the one before it; the oldest of 64 is written and done."""
    waiting, last, ticket, made = [], None, 0, 0
    count = 0
    while count < lines:
        block = made * 37 % 4096
        made += 1
        yield patch(block, made % 4096, "41", [last] if last else [])
        last = made
        waiting.append(block)
        count += 1
        if len(waiting) == 64 and count + 3 <= lines:
            ticket += 1
            yield {"do": "write", "block": waiting.pop(0)}
            yield {"do": "done", "ticket": ticket}
            count += 2
            if ticket % 256 == 0:
                yield {"do": "forget"}
                count += 1


def overlaps(lines):
    """Patches of 64 bytes over one block, each of which overlaps one in 32 of those before it."""
    for i in range(lines):
        yield patch(0, i * 61 % 4033, "41" * 64)


def ring(lines):
    """Over 64 blocks in turn, each patch after the newest of the next block: the blocks hold one another back in a ring."""
    for i in range(lines):
        block = i % 64
        newest = i - 63 if block < 63 else i - 126
        yield patch(block, i // 64 % 4096, "41", [newest + 1] if newest >= 0 else [])


def ladder(lines):
    """Over 64 blocks in turn, a patch that waits for none, and one that waits for such a patch of the block before."""
    free, made, step = {}, 0, 0
    while made < lines:
        block = step % 64
        yield patch(block, 2 * (step // 64) % 4096, "41")
        made += 1
        before = free.get((block - 1) % 64)
        free[block] = made
        if before and made < lines:
            yield patch(block, (2 * (step // 64) + 1) % 4096, "42", [before])
            made += 1
        step += 1


def random_rows(lines):
    """Over 256 blocks, each patch after up to three of the 600 before it; none is written."""
    rng = random.Random(5)
    for i in range(lines):
        names = [rng.randrange(max(1, i - 600), i + 1) for _ in range(rng.choice((1, 2, 3)))] if i > 2 else []
        yield patch(rng.randrange(256), rng.randrange(4096), "41", names)


def soft_below(lines):
    """A chain over two blocks in turn, and three times as many patches on 100 others, each after one of the chain."""
    rng = random.Random(6)
    chained = lines // 4
    for i in range(lines):
        if i < chained:
            yield patch(i % 2, i // 2 % 4096, "41", [i] if i else [])
        else:
            yield patch(2 + i % 100, i // 100 % 4096, "42", [rng.randrange(1, chained)])


def wide_gate(lines):
    """Half of the patches below one gate, half above it, over two halves of 128 blocks; then the gate is sealed."""
    half = (lines - 2) * 32 // 65
    for i in range(half):
        yield patch(i % 64, i // 64 % 4096, "41")
    gate = half + 1
    yield {"do": "gate"}
    for i in range(0, half, 64):
        yield {"do": "depend", "gate": gate, "on": list(range(i + 1, min(i + 65, half + 1)))}
    for i in range(half):
        yield patch(64 + i % 64, i // 64 % 4096, "42", [gate])
    yield {"do": "seal", "gate": gate}


def short(lines):
    """Lines that ask for nothing but the least writable block."""
    for _ in range(lines):
        yield {"do": "pick"}


WORKLOADS = [
    (chain, 15000),
    (wide_chain, 15000),
    (fan, 15000),
    (churn, 15000),
    (overlaps, 5000),
    (ring, 2500),
    (ladder, 2500),
    (random_rows, 2500),
    (soft_below, 2500),
    (wide_gate, 15000),
    (short, 15000),
]


def play(program, script):
    """Processor seconds and peak kilobytes of one run, how many replies it wrote, and how many of them are refusals."""
    with open(script, "rb") as given, tempfile.TemporaryFile() as replies:
        child = subprocess.Popen(
            [program, "play", "--blocks", "4096", "--size", "4096"], stdin=given, stdout=replies
        )
        _, status, used = os.wait4(child.pid, 0)
        seconds = used.ru_utime + used.ru_stime
        child.returncode = os.waitstatus_to_exitcode(status)
        if child.returncode != 0:
            sys.exit(f"{script}: the program ended with status {child.returncode}")
        # (a reply at a time: what this script holds counts in the child's peak)
        replies.seek(0)
        answered = refused = 0
        for reply in replies:
            answered += 1
            refused += reply.startswith(b"refused")
    return seconds, used.ru_maxrss, answered, refused


def main():
    args = argparse.ArgumentParser(description=__doc__, formatter_class=argparse.RawDescriptionHelpFormatter)
    args.add_argument("program", nargs="?", metavar="PROGRAM", default=os.path.join(ROOT, "feather"))
    program = args.parse_args().program
    if not shutil.which(program):
        args.error(f"there is no program {program}")
    print(f"{'workload':<12} {'lines':>7} {'us/line':>9} {'peak MB':>8} {'refused':>8} {'exponent':>9}")
    for workload, base in WORKLOADS:
        first = None
        for times in (1, 2, 4):
            lines = base * times
            with tempfile.NamedTemporaryFile("w", suffix=".jsonl", delete=False) as script:
                for line in workload(lines):
                    script.write(json.dumps(line, separators=(",", ":")) + "\n")
            try:
                seconds, peak, answered, refused = play(program, script.name)
            finally:
                os.unlink(script.name)
            first = first or (lines, seconds)
            exponent = ""
            if times == 4:
                exponent = f"{math.log(seconds / first[1]) / math.log(lines / first[0]):.2f}"
            print(
                f"{workload.__name__:<12} {answered:>7} {seconds / lines * 1e6:>9.1f} {peak / 1024:>8.0f}"
                f" {refused:>8} {exponent:>9}",
                flush=True,
            )


if __name__ == "__main__":
    main()
