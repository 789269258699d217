#!/usr/bin/env python3
"""A hunt for scripts on which `feather play` is slow beside another program: it changes those that are slowest so far.

    benchmarks/hunt.py --beside PROGRAM [--seed S] [--turns N] [--rounds R] [--keep FOLDER] [PROGRAM]

For whoever changes a search. The other benchmarks make scripts of one kind each, and what is slow is where nobody looked. A
*plan* here is a few stages, each of a few calls that are made again and again: on which block a change is, how many bytes it
has and which patches it comes after; gates and groups that are opened, gain and end; writes that go out and come back,
`forget`, and calls that only ask. The hunt begins with plans at random and goes on from the twenty on which PROGRAM took
longest beside the other: in a copy of one a stage, a call or a part of a call is changed, put in or left out. R plans are
played (200), each for N turns (12,000), which its stages share. A line says each time that a greater ratio was found, and
after each 50 plans, the ratio, the seconds and the plan. With --keep the scripts of the ten slowest are written to FOLDER
at the end, 1.jsonl to 10.jsonl, each with the words of its shape beside it. PROGRAM and the other are to give the same
replies; where they do not the hunt ends. The other is asked, line by line, what may be written. PROGRAM is the program as
`rt run` or `./feather` leaves it; without it `./feather` is used, which builds it once.
"""

import argparse
import copy
import os
import random
import sys
import tempfile
import typing

from shapes import ROOT, asked, played
from steady import Guide

# What an empty script takes is taken off, and of what the other takes so much is counted at least, in seconds.
LEAST = 0.006

# How many of a script's lines are asked at once at most: the replies have to fit into a pipe.
TOGETHER = 500

# How many plans are made at random before any is changed, and from how many the hunt goes on.
BEGINS, KEPT = 60, 20

PLACES = ["one", "turn", "random", "hot", "last", "next"]
NAMED = ["last", "near", "any", "own", "own near", "first", "middle", "mark", "gate", "old gate", "some gate", "group", "tail"]
KINDS = ["change"] * 6 + ["gate", "seal", "member", "write"] * 2 + ["empty", "gain", "group", "close", "done", "forget", "ask"]
ASKED = ["choose", "pick", "place", "stat", "held"]


def name(dice):
    """Which patches a call names: how they are chosen, how many, and from how far back."""
    return {"way": dice.choice(NAMED), "count": dice.choice([1, 1, 1, 2, 4, 16]), "near": dice.choice([1, 2, 8, 60, 500, 4000])}


def call(dice):
    """A call: what it is, where, after what, and of how many turns of its stage it is made in one."""
    return {
        "kind": dice.choice(KINDS),
        "place": dice.choice(PLACES),
        "over": dice.choice([1, 2, 3, 8, 64, 1024]),
        "bytes": dice.choice([1, 1, 2, 8, 64, 4096]),
        "names": [name(dice) for _ in range(dice.choice([0, 0, 1, 1, 1, 2, 3]))],
        "every": dice.choice([1, 1, 1, 2, 5, 30, 300, 3000]),
        "asks": dice.choice(ASKED),
        "fails": dice.random() < 0.1,
    }


def stage(dice):
    return {"share": dice.choice([1, 1, 2, 4, 0.2, 0.02]), "calls": [call(dice) for _ in range(dice.choice([1, 2, 2, 3, 4]))]}


def plan(dice):
    return {
        "blocks": dice.choice([1, 2, 4, 16, 64, 256, 1024]),
        "size": dice.choice([64, 256, 4096]),
        "again": dice.choice([1, 1, 1, 2, 10, 50]),
        "stages": [stage(dice) for _ in range(dice.choice([1, 2, 2, 3, 4]))],
    }


def changed(dice, old):
    """A copy of a plan with something else in it."""
    new = copy.deepcopy(old)
    for _ in range(dice.choice([1, 1, 2, 3])):
        stages = new["stages"]
        one = dice.choice(stages)
        way = dice.randrange(10)
        if way == 0:
            new["blocks"] = dice.choice([1, 2, 4, 16, 64, 256, 1024])
        elif way == 1:
            new["again"] = dice.choice([1, 1, 2, 10, 50])
        elif way == 2 and len(stages) < 6:
            stages.insert(dice.randrange(len(stages) + 1), stage(dice))
        elif way == 3 and len(stages) > 1:
            stages.remove(one)
        elif way == 4:
            one["share"] = dice.choice([0.02, 0.2, 1, 2, 4])
        elif way == 5 and len(one["calls"]) < 6:
            one["calls"].insert(dice.randrange(len(one["calls"]) + 1), call(dice))
        elif way == 6 and len(one["calls"]) > 1:
            one["calls"].remove(dice.choice(one["calls"]))
        else:
            part = dice.choice(one["calls"])
            key = dice.choice(list(part))
            part[key] = call(dice)[key]
    return new


class Player:
    """Makes the script of a plan, asking a program what may be written and which number a patch has."""

    def __init__(self, plan, turns, seed, program):
        self.plan, self.dice = plan, random.Random(seed)
        self.words = ["--blocks", str(plan["blocks"]), "--size", str(plan["size"])]
        self.guide, self.lines, self.some = Guide(program, self.words), [], []
        self.most, self.given = turns, 0
        self.all, self.of_block, self.mark = [], [[] for _ in range(plan["blocks"])], 1
        self.open, self.groups, self.out, self.turns, self.block = [], [], [], {}, 0

    def flush(self):
        if self.some:
            self.guide.ask(self.some)
            self.lines += self.some
            self.some = []

    def line(self, text):
        """A line whose reply nobody waits for."""
        self.some.append(text)
        if len(self.some) == TOGETHER:
            self.flush()

    def reply(self, text):
        self.flush()
        self.lines.append(text)
        return self.guide.ask([text])[0]

    def chosen_block(self, call, turn):
        blocks, over = self.plan["blocks"], min(call["over"], self.plan["blocks"])
        way = call["place"]
        if way == "one":
            return 0
        if way == "turn":
            return turn % over
        if way == "hot":
            return 0 if self.dice.random() < 0.5 else self.dice.randrange(blocks)
        if way == "last":
            return self.block
        if way == "next":
            return (self.block + 1) % over
        return self.dice.randrange(over)

    def recent(self, numbers, near):
        return [numbers[-1 - self.dice.randrange(min(near, len(numbers)))]] if numbers else []

    def named_once(self, name, block):
        way, near, dice = name["way"], name["near"], self.dice
        own = self.of_block[block]
        if way == "last":
            return self.all[-1:]
        if way == "near":
            return self.recent(self.all, near)
        if way == "any":
            return self.recent(self.all, len(self.all)) if self.all else []
        if way == "own":
            return own[-1:]
        if way == "own near":
            return self.recent(own, near)
        if way == "first":
            return [self.all[dice.randrange(min(near, len(self.all)))]] if self.all else []
        if way == "middle":
            return [self.all[len(self.all) // 2]] if self.all else []
        if way == "mark":
            return [self.mark] if self.given else []
        if way in ("gate", "old gate", "some gate"):
            return [self.chosen_gate(way)] if self.open else []
        if way in ("group", "tail") and self.groups:
            return [self.groups[-1] + (way == "tail")]
        return []

    def chosen_gate(self, way):
        if way == "old gate":
            return self.open[0]
        return self.open[-1] if way == "gate" else self.dice.choice(self.open[-40:])

    def named(self, call, block):
        names = set()
        for name in call["names"]:
            for _ in range(name["count"]):
                names.update(self.named_once(name, block))
        return sorted(names)[:64]

    def gate_of(self, call):
        ways = [name["way"] for name in call["names"] if name["way"] in ("gate", "old gate", "some gate")]
        return self.chosen_gate(ways[0] if ways else "gate")

    def note(self, block):
        self.given += 1
        self.all.append(self.given)
        self.of_block[block].append(self.given)

    def data(self, call):
        """Where a change stands in its block, and its bytes."""
        size = self.plan["size"]
        length = min(call["bytes"], size)
        return '"at":%d,"data":"%s"' % (self.dice.randrange(size - length + 1), "41" * length)

    def change(self, call, block):
        names = self.named(call, block)
        after = ',"after":[%s]' % ",".join(map(str, names)) if names else ""
        self.line('{"do":"patch","block":%d,%s%s}' % (block, self.data(call), after))
        self.note(block)

    def member(self, call, block):
        if self.groups:
            said = self.reply('{"do":"group_patch","group":%d,"block":%d,%s}' % (self.groups[-1], block, self.data(call)))
            if said[0] == "patch":
                self.note(block)

    def empty(self, call, block):
        names = self.named(call, block)
        self.line('{"do":"empty"%s}' % (',"after":[%s]' % ",".join(map(str, names)) if names else ""))
        self.given += 1
        self.all.append(self.given)

    def gate(self, call, block):
        names = self.named(call, block)
        self.line('{"do":"gate"}')
        self.given += 1
        self.open.append(self.given)
        if names:
            self.line('{"do":"depend","gate":%d,"on":[%s]}' % (self.given, ",".join(map(str, names))))

    def gain(self, call, block):
        names = self.named(call, block)
        if self.open and names:
            self.line('{"do":"depend","gate":%d,"on":[%s]}' % (self.gate_of(call), ",".join(map(str, names))))

    def seal(self, call, block):
        if self.open:
            gate = self.gate_of(call)
            self.open.remove(gate)
            self.line('{"do":"seal","gate":%d}' % gate)

    def group(self, call, block):
        said = self.reply('{"do":"group"}')
        if said[0] == "group":
            self.given += 2
            if self.groups and call["names"]:
                self.line('{"do":"group_after","group":%s,"on":%d}' % (said[1], self.groups[-1]))
            self.groups.append(int(said[1]))

    def close(self, call, block):
        if self.groups:
            group = self.groups[0] if call["fails"] else self.groups[-1]
            self.groups.remove(group)
            self.line('{"do":"group_close","group":%d}' % group)

    def write(self, call, block):
        if call["place"] == "turn":
            said = self.reply('{"do":"pick"}')
            block = int(said[1]) if said[1] != "none" else block
        said = self.reply('{"do":"write","block":%d}' % block)
        if said[0] == "flight":
            self.out.append((int(said[1]), block))
        if not call["fails"]:
            self.done(call, block)

    def done(self, call, block):
        if self.out:
            ticket, _ = self.out.pop(0)
            self.line('{"do":"done","ticket":%d}' % ticket)

    def forget(self, call, block):
        self.line('{"do":"forget"}')

    def ask(self, call, block):
        way = call["asks"]
        if way == "place":
            self.line('{"do":"place","patch":%d}' % self.dice.randint(1, max(1, self.given)))
        elif way == "held":
            self.line('{"do":"write","block":%d}' % block)
        elif way == "choose":
            self.line('{"do":"choose","block":%d}' % block)
        else:
            self.line('{"do":"%s"}' % way)

    def played_once(self, calls, turn):
        for number, call in calls:
            if turn % call["every"] == 0 and self.given < 60_000:
                block = self.chosen_block(call, self.turns.get(number, 0))
                self.turns[number] = self.turns.get(number, 0) + 1
                getattr(self, call["kind"])(call, block)
                self.block = block

    def script(self):
        stages, again = self.plan["stages"], self.plan["again"]
        whole = sum(stage["share"] for stage in stages) * again
        for _ in range(again):
            for place, stage in enumerate(stages):
                self.mark = max(1, self.given)
                calls = [((place, number), call) for number, call in enumerate(stage["calls"])]
                for turn in range(int(self.most * stage["share"] / whole) + 1):
                    self.played_once(calls, turn)
        self.line('{"do":"stat"}')
        self.flush()
        self.guide.close()
        return self.lines


def says(plan):
    parts = []
    for stage in plan["stages"]:
        calls = []
        for call in stage["calls"]:
            text = f"{call['kind']} {call['place']} of {call['over']}"
            if call["kind"] in ("change", "member"):
                text += f", bytes {call['bytes']}"
            if call["kind"] == "ask":
                text = call["asks"]
            for name in call["names"]:
                text += f", {name['count']} {name['way']} {name['near']}"
            calls.append(text + (f", every {call['every']}" if call["every"] > 1 else "") + ("!" if call["fails"] else ""))
        parts.append(f"share {stage['share']}: " + "; ".join(calls))
    return f"{plan['blocks']} of {plan['size']}, again {plan['again']} | " + " | ".join(parts)


class Tried(typing.NamedTuple):
    """A plan that was played: how many times the other's time it took, the seconds of both, and its script."""

    ratio: float
    ours: float
    other: float
    plan: dict
    words: list
    lines: list


def told(tried):
    return f"{tried.ratio:.2f} times, {tried.ours:.3f} s, beside {tried.other:.3f} s; {says(tried.plan)}"


class Hunt:
    def __init__(self, known):
        self.known, self.dice, self.kept = known, random.Random(known.seed), []
        self.start = [min(self.seconds(program, [], []) for _ in range(5)) for program in (known.program, known.beside)]

    def seconds(self, program, words, lines):
        """The processor seconds of a script; a sum of the replies is kept in `sum`."""
        with tempfile.NamedTemporaryFile("w", suffix=".jsonl") as script:
            script.write("".join(line + "\n" for line in lines))
            script.flush()
            used, _, sum = played(program, words, script.name)
        self.sum = sum
        return used

    def tried(self, plan, seed):
        player = Player(plan, self.known.turns, seed, self.known.beside)
        lines = player.script()
        ours = self.seconds(self.known.program, player.words, lines) - self.start[0]
        mine = self.sum
        other = self.seconds(self.known.beside, player.words, lines) - self.start[1]
        if mine != self.sum or not mine:
            sys.exit(f"the replies differ, or a program failed: {says(plan)}")
        if ours > 3 * max(other, LEAST):
            ours = min(ours, self.seconds(self.known.program, player.words, lines) - self.start[0])
            other = max(other, self.seconds(self.known.beside, player.words, lines) - self.start[1])
        return Tried(ours / max(other, LEAST), ours, other, plan, player.words, lines)

    def keep_slowest(self, tried):
        self.kept = sorted([*self.kept, tried], key=lambda it: it.ratio, reverse=True)[:KEPT]

    def run(self):
        for number in range(self.known.rounds):
            if number < BEGINS or self.dice.random() < 0.2:
                new = plan(self.dice)
            else:
                new = changed(self.dice, self.dice.choice(self.kept).plan)
            before = self.kept[0].ratio if self.kept else 0
            self.keep_slowest(self.tried(new, self.dice.randrange(1 << 30)))
            best = self.kept[0]
            if best.ratio > before or number % 50 == 49:
                print(f"{number + 1}: {told(best)}", flush=True)

    def keep(self, folder):
        os.makedirs(folder, exist_ok=True)
        for number, kept in enumerate(self.kept[:10], 1):
            with open(f"{folder}/{number}.jsonl", "w") as script:
                script.write("".join(line + "\n" for line in kept.lines))
            with open(f"{folder}/{number}.words", "w") as words:
                words.write(" ".join(kept.words) + "\n")
            print(f"{number}: {told(kept)}")


def main():
    args = argparse.ArgumentParser(description=__doc__, formatter_class=argparse.RawDescriptionHelpFormatter)
    args.add_argument("--beside", metavar="PROGRAM", required=True, help="a second program, whose replies are to be the same")
    args.add_argument("--seed", type=int, default=1, metavar="S", help="where the dice begin")
    args.add_argument("--turns", type=int, default=12_000, metavar="N", help="how many turns a plan has")
    args.add_argument("--rounds", type=int, default=200, metavar="R", help="how many plans are played")
    args.add_argument("--keep", metavar="FOLDER", help="where the scripts of the ten slowest are left")
    args.add_argument("program", nargs="?", metavar="PROGRAM", default=os.path.join(ROOT, "feather"))
    known = asked(args)
    hunt = Hunt(known)
    hunt.run()
    if known.keep:
        hunt.keep(known.keep)
    return 0


if __name__ == "__main__":
    sys.exit(main())
