"""What a script has made so far, as far as a picture shows it."""

import copy
import json
import sys

MOST = 200


class Patch:
    """A change, an empty patch or a gate. `kind` is hard, soft, empty, open or sealed; `block` is None but for a change."""

    def __init__(self, number, kind, after, block=None, at=0, data="", name=""):
        self.number, self.kind, self.after = number, kind, list(after)
        self.block, self.at, self.data, self.name = block, at, data, name
        self.place = "memory"

    def overlaps(self, other):
        end, other_end = self.at + len(self.data) // 2, other.at + len(other.data) // 2
        return self.block == other.block and self.at < other_end and other.at < end


class Frame:
    """How things stand after a line."""

    def __init__(self, number, line, reply, patches, flights, disk):
        self.number, self.line, self.reply = number, line, reply
        self.patches, self.flights, self.disk = patches, flights, disk


class Story:
    def __init__(self):
        self.patches = {}
        self.flights = {}
        self.disk = {}
        self.groups = {}

    def take(self, line, reply):
        """Takes in a line of the script with its reply; a refused line changes nothing."""
        words = reply.split()
        if words[0] == "refused":
            return
        said = json.loads(line)
        taken = getattr(self, f"_{said['do']}", None)
        if taken:
            taken(said, words)
        if len(self.patches) > MOST:
            sys.exit(f"picture: the script makes more than {MOST} patches")

    def _add(self, patch):
        patch.after = sorted({n for n in patch.after if n in self.patches and self.patches[n].place != "disk"})
        self.patches[patch.number] = patch

    def _change(self, said, words, after):
        new = Patch(int(words[1]), words[2], after, said["block"], said["at"], said["data"].lower())
        # (a change comes after each one that it overlaps and that is not on disk)
        new.after += [old.number for old in self.patches.values() if old.block is not None and new.overlaps(old)]
        self._add(new)
        return new.number

    def _patch(self, said, words):
        self._change(said, words, said.get("after", []))

    def _empty(self, said, words):
        self._add(Patch(int(words[1]), "empty", said.get("after", [])))

    def _gate(self, _said, words):
        self._add(Patch(int(words[1]), "open", []))

    def _gain(self, gate, numbers):
        gained = [n for n in numbers if n in self.patches and self.patches[n].place != "disk"]
        self.patches[gate].after = sorted({*self.patches[gate].after, *gained})

    def _depend(self, said, _words):
        self._gain(said["gate"], said["on"])

    def _seal(self, said, _words):
        self.patches[said["gate"]].kind = "sealed"

    def _group(self, _said, words):
        head = int(words[1])
        self.groups[head] = head + 1
        self._add(Patch(head, "open", [], name=f"group {head} head"))
        self._add(Patch(head + 1, "open", [head], name=f"group {head} tail"))

    def _group_after(self, said, _words):
        self._gain(said["group"], [self.groups[said["on"]]])

    def _group_patch(self, said, words):
        head = said["group"]
        self.patches[head].kind = "sealed"
        self._gain(self.groups[head], [self._change(said, words, [head])])

    def _group_close(self, said, _words):
        for gate in (said["group"], self.groups[said["group"]]):
            self.patches[gate].kind = "sealed"

    def _write(self, _said, words):
        # flight T block B patches L image H
        self.flights[int(words[3])] = (int(words[1]), words[7], "out")

    _retry = _write

    def _done(self, said, words):
        block = int(words[3])
        ticket, image, _ = self.flights[block]
        if words[0] == "done":
            del self.flights[block]
        else:
            self.flights[block] = (ticket, image, words[0])

    def look(self, program):
        """Asks where each patch is, and what the disk holds."""
        for patch in self.patches.values():
            if patch.place != "disk":
                patch.place = program.ask(do="place", patch=patch.number).split()[2]
        held = program.ask(do="crash", finish=[]).split()
        if held[0] == "crash":
            self.disk = dict(enumerate(held[1:]))

    def frame(self, number, line, reply):
        return Frame(number, line, reply, copy.deepcopy(self.patches), dict(self.flights), dict(self.disk))
