#!/usr/bin/env python3
"""Scripts made at random, one a seed, and the processor seconds that `feather play` takes over them.

    benchmarks/shapes.py [--beside PROGRAM] [--lines N] FIRST LAST [PROGRAM]
    benchmarks/shapes.py [--lines N] --script SEED

For whoever changes a search: a shape that nobody thought of is where a search is slow. A seed chooses how many blocks there
are and of what size, how a patch chooses its block, after which patches it comes, what gates, groups and empty patches
there are, and how often is written and forgotten; N patches are made (20,000). For each seed from FIRST to LAST a line says
the seconds and the peak memory, and what the seed chose. With --beside a second program plays the same script: it
is to give the same replies, and the line ends in `slow` where PROGRAM takes three times as long. With --script the
script of one seed is printed, with the words of its shape on standard error.

PROGRAM is the program as `rt run` or `./feather` leaves it; without it `./feather` is used, which builds it once. Each
run has 60 processor seconds.
"""

import argparse
import hashlib
import os
import random
import shutil
import subprocess
import sys
import tempfile

ROOT = os.path.dirname(os.path.dirname(os.path.abspath(__file__)))
SECONDS = 60


class Shape:
    """What a seed chooses, and the script that it makes."""

    def __init__(self, seed, count):
        dice = self.dice = random.Random(seed)
        self.count = count
        self.blocks = dice.choice([1, 2, 8, 16, 64, 256, 512, 1024, 4096])
        self.size = dice.choice([64, 256, 4096])
        self.places = dice.choice(["turn", "rand", "hot", "two", "walk", "skew"])
        ways = ["prev", "none", "rand", "near", "hub", "half", "tree", "layer", "fan", "own", "ladder", "mix", "chains"]
        self.after = dice.choice(ways)
        self.width = dice.choice([1, 2, 3, 8, 64])
        self.near = dice.choice([4, 50, 600, 8000])
        self.share = dice.choice([0.2, 0.5, 0.9, 1.0])
        kinds = ["none", "none", "open", "sealedchain", "manygates", "late", "groups", "empties"]
        self.gates = dice.choice(kinds)
        self.every = dice.choice([3, 10, 50, 400])
        self.wide = dice.choice([1, 5, 30, 64])
        self.writes = dice.choice(["never", "never", "some", "end", "often"])
        self.write_every = dice.choice([20, 100, 1000])
        self.longest = dice.choice([1, 4, 32, 64])
        self.forgets = dice.random() < 0.3
        self.lines, self.given, self.changes, self.newest = [], 0, [], {}
        self.open, self.hub, self.ticket = [], dice.randrange(self.blocks), 0

    def words(self):
        return ["--blocks", str(self.blocks), "--size", str(self.size)]

    def says(self):
        return (
            f"blocks {self.blocks} of {self.size}, {self.places}; after {self.after}, width {self.width}, near {self.near}, share {self.share}; "
            f"gates {self.gates}, every {self.every}, wide {self.wide}; writes {self.writes}, every {self.write_every}; "
            f"bytes up to {self.longest}{'; forgets' if self.forgets else ''}"
        )

    def line(self, text):
        self.lines.append(text)

    def block(self, i):
        """The block of the next change."""
        dice, blocks = self.dice, self.blocks
        if self.places == "turn":
            return i % blocks
        if self.places == "rand":
            return dice.randrange(blocks)
        if self.places == "hot":
            return dice.randrange(max(1, blocks // 16)) if dice.random() < 0.8 else dice.randrange(blocks)
        if self.places == "two":
            half = max(1, blocks // 2)
            return dice.randrange(half) if (i // 500) % 2 else (max(0, blocks // 2) + dice.randrange(max(1, blocks - blocks // 2))) % blocks
        if self.places == "walk":
            return (i // 7 + dice.randrange(3)) % blocks
        return int(blocks * dice.random() ** 3)

    def names(self, block):
        """What a change of the block comes after."""
        dice, made = self.dice, self.changes
        count = len(made)
        if not made or dice.random() > self.share:
            return []
        way = self.after
        if way == "mix":
            way = dice.choice(["prev", "rand", "near", "half", "own", "hub"])
        if way == "prev":
            return [made[-1]]
        if way == "rand":
            return [dice.choice(made) for _ in range(min(self.width, 8))]
        if way == "near":
            return [made[-1 - dice.randrange(min(self.near, count))] for _ in range(min(self.width, 8))]
        if way == "hub":
            if block != self.hub and self.hub in self.newest:
                return [self.newest[self.hub]]
            return [made[-1 - dice.randrange(min(self.near, count))]]
        if way == "half":
            return [made[count // 2], made[-1]]
        if way == "tree":
            return [made[count // 2]]
        if way == "layer":
            base = count // 64 * 64
            return [made[dice.randrange(max(0, base - 64), base)] for _ in range(2)] if base else []
        if way == "fan":
            return [made[0]]
        if way == "own":
            return [self.newest[block]] if block in self.newest else []
        if way == "ladder":
            before = (block - 1) % self.blocks
            return [self.newest[before]] if before in self.newest else []
        if way == "chains":
            return [made[-1 - self.width]] if count > self.width else []
        return []

    def data(self, length):
        return "%0*x" % (2 * length, self.dice.getrandbits(8 * length))

    def note(self, block):
        self.given += 1
        self.changes.append(self.given)
        self.newest[block] = self.given

    def patch(self, i, besides=()):
        block = self.block(i)
        names = sorted({*self.names(block), *besides})[:64]
        length = self.dice.randint(1, min(self.longest, self.size))
        at = self.dice.randint(0, self.size - length) if self.longest > 1 else i // self.blocks % self.size
        after = ',"after":[%s]' % ",".join(map(str, names)) if names else ""
        self.line('{"do":"patch","block":%d,"at":%d,"data":"%s"%s}' % (block, at, self.data(length), after))
        self.note(block)

    def member(self, i, head):
        block = self.block(i)
        length = self.dice.randint(1, min(self.longest, self.size))
        at = self.dice.randint(0, self.size - length)
        self.line('{"do":"group_patch","group":%d,"block":%d,"at":%d,"data":"%s"}' % (head, block, at, self.data(length)))
        self.note(block)

    def gate(self):
        self.line('{"do":"gate"}')
        self.given += 1
        self.open.append(self.given)
        return self.given

    def depend(self, gate, names):
        self.line('{"do":"depend","gate":%d,"on":[%s]}' % (gate, ",".join(map(str, names))))

    def seal(self, gate):
        self.line('{"do":"seal","gate":%d}' % gate)

    def change(self, i):
        """A change, with what comes before and after it."""
        dice, made = self.dice, self.changes
        first = i % self.every == 0
        if self.gates == "open":
            self.patch(i, [self.open[0]] if i % 2 else [])
        elif self.gates == "sealedchain":
            if first:
                gate = self.gate()
                if made:
                    self.depend(gate, sorted({made[-1 - dice.randrange(min(len(made), self.wide * 2))] for _ in range(self.wide)}))
                self.seal(gate)
            self.patch(i, [self.open[-1]])
        elif self.gates == "manygates":
            if first:
                self.gate()
            self.patch(i, [dice.choice(self.open[-20:])] if dice.random() < 0.5 else [])
            if i % self.every == self.every - 1 and len(self.open) > 3:
                gate = self.open[dice.randrange(max(0, len(self.open) - 20), len(self.open) - 1)]
                self.depend(gate, [made[max(0, len(made) - 1 - self.every * 30)]])
                if dice.random() < 0.7:
                    self.seal(gate)
        elif self.gates == "late":
            if first:
                self.gate()
            self.patch(i, [self.open[-1]])
        elif self.gates == "empties" and first:
            names = sorted(set(self.names(0)))
            self.line('{"do":"empty"%s}' % (',"after":[%s]' % ",".join(map(str, names)) if names else ""))
            self.given += 1
            made.append(self.given)
        else:
            self.patch(i)

    def write(self, i):
        """A write of some block, a completion of some write, and at times what is on disk is forgotten."""
        often = self.write_every if self.writes == "some" else max(5, self.write_every // 10)
        if self.writes not in ("some", "often") or i % often:
            return
        self.line('{"do":"pick"}')
        self.line('{"do":"write","block":%d}' % self.dice.randrange(self.blocks))
        self.ticket += 1
        self.line('{"do":"done","ticket":%d}' % self.dice.randint(max(1, self.ticket - 30), self.ticket))
        if self.forgets and i % (self.write_every * 10) == 0:
            self.line('{"do":"forget"}')

    def script(self):
        dice, head = self.dice, None
        if self.gates == "open":
            self.gate()
        for i in range(self.count):
            if self.gates == "groups" and i % self.every == 0:
                if head:
                    self.line('{"do":"group_close","group":%d}' % head)
                before, head = head, self.given + 1
                self.line('{"do":"group"}')
                self.given += 2
                if before and dice.random() < 0.8:
                    self.line('{"do":"group_after","group":%d,"on":%d}' % (head, before))
            if self.gates == "groups" and dice.random() < 0.8:
                self.member(i, head)
            else:
                self.change(i)
            self.write(i + 1)
        if self.gates == "late":
            order = self.open[:]
            if dice.random() < 0.5:
                dice.shuffle(order)
            for gate in order:
                self.seal(gate)
        if self.gates == "open" and dice.random() < 0.5:
            self.seal(self.open[0])
        if self.writes == "end":
            few, ticket = min(self.blocks, 64), 0
            for _ in range(40):
                for block in range(few):
                    self.line('{"do":"write","block":%d}' % block)
                for _ in range(few):
                    ticket += 1
                    self.line('{"do":"done","ticket":%d}' % ticket)
        self.line('{"do":"stat"}')
        return self.lines


# Runs a program and tells what it used. It is small, since the peak of a process counts what it was split from.
WATCH = """
import os, resource, sys
report, seconds, *words = sys.argv[1:]
child = os.fork()
if not child:
    resource.setrlimit(resource.RLIMIT_CPU, (int(seconds), int(seconds)))
    os.execvp(words[0], words)
_, status, used = os.wait4(child, 0)
os.write(int(report), f"{used.ru_utime + used.ru_stime} {used.ru_maxrss / 1024} {status}".encode())
"""


def played(program, words, path):
    """Processor seconds, peak in MB (6 at least), and a sum of the replies; None for the sum where the program did not end well."""
    told, report = os.pipe()
    watch = [sys.executable, "-S", "-c", WATCH, str(report), str(SECONDS), program, "play", *words]
    with open(path, "rb") as script:
        child = subprocess.Popen(watch, stdin=script, stdout=subprocess.PIPE, pass_fds=[report])
        os.close(report)
        replies = hashlib.sha256()
        for part in iter(lambda: child.stdout.read(1 << 20), b""):
            replies.update(part)
        child.wait()
    with os.fdopen(told) as said:
        used, peak, status = said.read().split()
    return float(used), float(peak), None if int(status) else replies.hexdigest()


def compared(name, program, beside, words, lines, says=""):
    """Plays the script, by a second program too if one is named, prints a row for it, and answers whether all is well."""
    with tempfile.NamedTemporaryFile("w", suffix=".jsonl") as script:
        script.write("\n".join(lines) + "\n")
        script.flush()
        ours = played(program, words, script.name)
        other = played(beside, words, script.name) if beside else None
    row = f"{name}: {ours[0]:.3f} s, {ours[1]:.0f} MB"
    if other:
        row += f"; beside {other[0]:.3f} s, {other[1]:.0f} MB"
    well = bool(ours[2]) and (not other or ours[2] == other[2])
    if not ours[2]:
        row += "; FAILED"
    elif not well:
        row += "; REPLIES DIFFER"
    elif other and ours[0] > 3 * other[0]:
        row += "; slow"
    print(f"{row}; {says}" if says else row, flush=True)
    return well


def asked(args):
    """The words; a program that is not there is refused, and seeds that go down."""
    known = args.parse_args()
    for program in (known.program, known.beside):
        if program and not shutil.which(program):
            args.error(f"there is no program {program}")
    if getattr(known, "last", None) is not None and known.last < known.first:
        args.error("LAST is less than FIRST")
    return known


def chosen(args, only, shapes):
    """The shapes that --only names, or all; a name of none is refused."""
    named = {shape.__name__: shape for shape in shapes}
    for name in only.split(",") if only else ():
        if name not in named:
            args.error(f"there is no script {name}")
    return [shape for name, shape in named.items() if not only or name in only.split(",")]


def main():
    args = argparse.ArgumentParser(description=__doc__, formatter_class=argparse.RawDescriptionHelpFormatter)
    args.add_argument("--beside", metavar="PROGRAM", help="a second program, whose replies are to be the same")
    args.add_argument("--lines", type=int, default=20_000, metavar="N", help="how many patches are made")
    args.add_argument("--script", type=int, metavar="SEED", help="print the script of one seed")
    args.add_argument("first", type=int, nargs="?", metavar="FIRST", help="the first seed")
    args.add_argument("last", type=int, nargs="?", metavar="LAST", help="the last seed")
    args.add_argument("program", nargs="?", metavar="PROGRAM", default=os.path.join(ROOT, "feather"))
    known = asked(args)
    if known.script is not None:
        shape = Shape(known.script, known.lines)
        print(" ".join(shape.words()), file=sys.stderr)
        print("\n".join(shape.script()))
        return 0
    if known.last is None:
        args.error("FIRST and LAST are wanted, or --script SEED")
    bad = 0
    for seed in range(known.first, known.last + 1):
        shape = Shape(seed, known.lines)
        bad += not compared(seed, known.program, known.beside, shape.words(), shape.script(), shape.says())
    return 1 if bad else 0


if __name__ == "__main__":
    sys.exit(main())
