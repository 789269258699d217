"""Frames as text and as SVG. Every arrow goes up from a patch to what it comes after, through the gaps between boxes."""

import json
import re
from html import escape

FILLS = {"memory": "#fff3c4", "flight": "#bcd9f7", "disk": "#cfe8cf"}
EDGES = {"memory": "#8a6d00", "flight": "#1f5fa8", "disk": "#3d7a3d"}
FLIGHTS = {"out": "#1f5fa8", "stalled": "#b35c00", "lost": "#b00020"}
INK, FAINT = "#222222", "#b5b5b5"

MONO = 'font-family="monospace"'

WIDE, HIGH, GAP, ROW = 132, 44, 40, 34
TOP, HEAD, MARGIN = 62, 66, 24


def told(patch):
    """What stands in a patch's box: its name, and what it is."""
    if patch.block is not None:
        data = patch.data if len(patch.data) <= 10 else f"{patch.data[:8]}.."
        return f"{patch.number} {patch.kind}", f"{data} at {patch.at}"
    if patch.kind == "empty":
        return f"{patch.number} empty patch", ""
    return f"{patch.number} {patch.kind} gate", patch.name


def columns_of(frames):
    """The columns from the left: patches that change no block, if there are any, and the blocks that a change is of."""
    blocks = {patch.block for frame in frames for patch in frame.patches.values()}
    used = sorted(block for block in blocks if block is not None)
    first = [None] if None in blocks else []
    return first + (used or ([] if first else [0]))


# ---- text


def text_of(frames):
    return "\n\n".join(text_frame(frame) for frame in frames)


def text_frame(frame):
    lines = [f"{frame.line}  ->  {frame.reply}"]
    for column in columns_of([frame]):
        if column is None:
            lines.append("no block")
        else:
            flight = frame.flights.get(column)
            out = f"   flight {flight[0]} {flight[1]} {flight[2]}" if flight else ""
            lines.append(f"block {column}   on disk {frame.disk.get(column, '')}{out}")
        for patch in frame.patches.values():
            if patch.block == column:
                name, what = told(patch)
                after = f"after {', '.join(map(str, patch.after))}" if patch.after else ""
                lines.append(f"  {name:<16}{what:<18}{patch.place:<8}{after}".rstrip())
    return "\n".join(lines)


# ---- SVG


def rows_of(frame):
    """A row for each patch: below all that it comes after, and below the earlier patches of its column."""
    rows, floor = {}, {}
    for number, patch in sorted(frame.patches.items()):
        if patch.name.endswith("tail"):
            continue
        rows[number] = max([rows[n] + 1 for n in patch.after if n in rows] + [floor.get(patch.block, 0)])
        floor[patch.block] = rows[number] + 1
    # (gates may gain what was made after them: they move down until all that they come after is above)
    for _ in frame.patches:
        for number, patch in sorted(frame.patches.items()):
            row = max([rows.get(n, -1) + 1 for n in patch.after] + [rows.get(number, 0)])
            taken = {rows[n] for n, p in frame.patches.items() if n in rows and n != number and p.block == patch.block}
            while row in taken:
                row += 1
            rows[number] = row
    return rows


class Drawing:
    def __init__(self, frame, columns):
        self.frame, self.columns, self.rows = frame, columns, rows_of(frame)
        self.width = 2 * MARGIN + len(self.columns) * (WIDE + GAP)
        self.width = max(self.width, 330)
        depth = max(self.rows.values(), default=0) + 1
        self.height = TOP + HEAD + depth * (HIGH + ROW) + 8
        self.lanes, self.parts = {}, []

    def corner(self, number):
        patch = self.frame.patches[number]
        x = MARGIN + self.columns.index(patch.block) * (WIDE + GAP)
        return x, TOP + HEAD + self.rows[number] * (HIGH + ROW)

    def lane(self, *place):
        """How far to the side an arrow goes in a gap that others take too."""
        taken = self.lanes.get(place, 0)
        self.lanes[place] = taken + 1
        return 5 * taken

    def text(self, x, y, text, size=13, colour=INK, more=""):
        self.parts.append(f'<text x="{x:g}" y="{y:g}" font-size="{size}" fill="{colour}" {more}>{escape(drawable(text))}</text>')

    def box(self, x, y, wide, high, fill, edge, more):
        self.parts.append(f'<rect x="{x:g}" y="{y:g}" width="{wide:g}" height="{high:g}" fill="{fill}" stroke="{edge}" {more}/>')

    def head(self, index, column):
        x = MARGIN + index * (WIDE + GAP)
        self.box(x - 9, TOP, WIDE + 18, self.height - TOP - 4, "#f7f7f7", "#dddddd", 'rx="6"')
        if column is None:
            self.text(x, TOP + 20, "no block", 13, INK, 'font-weight="bold"')
            return
        self.text(x, TOP + 20, f"block {column}", 13, INK, 'font-weight="bold"')
        self.text(x, TOP + 37, f"disk {short(self.frame.disk.get(column, ''))}", 12, EDGES["disk"])
        flight = self.frame.flights.get(column)
        if flight:
            ticket, image, how = flight
            label = {"out": f"write {ticket}", "stalled": "failed", "lost": "lost"}[how]
            self.text(x, TOP + 53, f"{label} {short(image)}", 12, FLIGHTS[how])

    def patch(self, number):
        patch = self.frame.patches[number]
        (x, y), (name, what) = self.corner(number), told(patch)
        soft = 'stroke-dasharray="6 4" stroke-width="1.5"'
        shape = {"hard": 'stroke-width="3"', "open": f'rx="20" {soft}', "sealed": 'rx="20" stroke-width="3"'}
        more = shape.get(patch.kind, soft if patch.kind == "soft" else 'rx="20" stroke-width="1"')
        self.box(x, y, WIDE, HIGH, FILLS[patch.place], EDGES[patch.place], more)
        middle = f'text-anchor="middle" class="p{number}"'
        self.text(x + WIDE / 2, y + (19 if what else 27), name, 13, INK, middle + ' font-weight="bold"')
        if what:
            self.text(x + WIDE / 2, y + 35, what, 12, INK, middle)

    def arrow(self, start, end):
        """From the top of a patch into the gap above it, beside the other's column, and into its side."""
        (x, y), (to_x, to_y) = self.corner(start), self.corner(end)
        faint = self.frame.patches[end].place == "disk"
        colour, tip = (FAINT, "faint") if faint else (INK, "ink")
        own = self.columns.index(self.frame.patches[start].block)
        other = self.columns.index(self.frame.patches[end].block)
        from_x = x + WIDE / 2 + self.lane("top", start) * 2
        if own == other and self.rows[start] == self.rows[end] + 1:
            points = [(from_x, y), (from_x, to_y + HIGH + 2)]
        else:
            gap_y = y - ROW / 2 + self.lane("gap", self.rows[start]) - 4
            is_right = own >= other
            side = to_x + WIDE if is_right else to_x
            gutter = side + (1 if is_right else -1) * (13 + self.lane("gutter", other, is_right))
            if self.rows[start] == self.rows[end] + 1 and abs(own - other) >= 1:
                # (the box is just above the gap: in by its lower edge)
                into = to_x + WIDE / 2 + (1 if is_right else -1) * (24 + self.lane("low", end, is_right) * 2)
                points = [(from_x, y), (from_x, gap_y), (into, gap_y), (into, to_y + HIGH + 2)]
            else:
                side_y = to_y + HIGH / 2 + self.lane("side", end, is_right)
                points = [(from_x, y), (from_x, gap_y), (gutter, gap_y), (gutter, side_y), (side + (2 if is_right else -2), side_y)]
        self.parts.append(f'<path d="{rounded(points)}" fill="none" stroke="{colour}" stroke-width="1.4" marker-end="url(#{tip})"/>')

    def drawn(self):
        frame = self.frame
        most = int((self.width - MARGIN) / 7.3)
        self.text(MARGIN - 9, 24, cut(f"{frame.number}. {plainly(frame.line)}", most), 12, INK, MONO)
        self.text(MARGIN - 9, 44, cut(f"-> {frame.reply}", most), 12, "#555555", MONO)
        for index, column in enumerate(self.columns):
            self.head(index, column)
        for number, patch in sorted(frame.patches.items()):
            for end in patch.after:
                self.arrow(number, end)
        for number in sorted(frame.patches):
            self.patch(number)
        return "\n".join(self.parts)


def plainly(line):
    """A line of the script without the signs of JSON, where it is an object."""
    try:
        words = json.loads(line)
        rest = [f"{name} {','.join(map(str, it)) if isinstance(it, list) else it}" for name, it in words.items() if name != "do"]
        return " ".join([str(words["do"]), *rest])
    except (ValueError, KeyError, AttributeError, RecursionError):
        return line


def drawable(text):
    """A text with a sign in the place of each character that XML does not have."""
    return re.sub("[^\t\x20-\ud7ff\ue000-\ufffd\U00010000-\U0010ffff]", "\ufffd", text)


def short(hex_bytes):
    return hex_bytes if len(hex_bytes) <= 12 else f"{hex_bytes[:10]}.."


def cut(text, most):
    return text if len(text) <= most else f"{text[: most - 2]}.."


def rounded(points):
    """A path through the points with round corners."""
    path = [f"M {points[0][0]:g} {points[0][1]:g}"]
    for before, here, after in zip(points, points[1:], points[2:]):
        reach = min(6, distance(before, here) / 2, distance(here, after) / 2)
        near, far = toward(here, before, reach), toward(here, after, reach)
        path.append(f"L {near[0]:g} {near[1]:g} Q {here[0]:g} {here[1]:g} {far[0]:g} {far[1]:g}")
    path.append(f"L {points[-1][0]:g} {points[-1][1]:g}")
    return " ".join(path)


def distance(one, other):
    return abs(one[0] - other[0]) + abs(one[1] - other[1])


def toward(start, end, reach):
    whole = distance(start, end) or 1
    return start[0] + (end[0] - start[0]) * reach / whole, start[1] + (end[1] - start[1]) * reach / whole


def legend(y, most):
    """What the signs mean, in rows that are no wider than that; and how wide and high they are."""
    parts, x, widest = [], MARGIN - 9, 0
    rows = [(FILLS[place], EDGES[place], 'stroke-width="1"', f"in {place}" if place != "disk" else "on disk") for place in FILLS]
    rows.append(("#ffffff", INK, 'stroke-width="3"', "hard"))
    rows.append(("#ffffff", INK, 'stroke-dasharray="5 3" stroke-width="1.5"', "soft; open gate"))
    rows.append(("#ffffff", INK, 'rx="8" stroke-width="1"', "gate, empty patch"))
    for fill, edge, more, name in rows:
        wide = 52 + 7 * len(name)
        if x + wide > most and x > MARGIN - 9:
            x, y = MARGIN - 9, y + 26
        parts.append(f'<rect x="{x}" y="{y}" width="26" height="16" fill="{fill}" stroke="{edge}" {more}/>')
        parts.append(f'<text x="{x + 33}" y="{y + 13}" font-size="12" fill="{INK}">{name}</text>')
        x += wide
        widest = max(widest, x)
    if x + 120 > most:
        x, y = MARGIN - 9, y + 26
    parts.append(f'<path d="M {x} {y + 8} L {x + 26} {y + 8}" stroke="{INK}" stroke-width="1.4" marker-end="url(#ink)"/>')
    parts.append(f'<text x="{x + 35}" y="{y + 13}" font-size="12" fill="{INK}">comes after</text>')
    return "\n".join(parts), max(widest, x + 120), y


def marker(name, colour):
    return (
        f'<marker id="{name}" viewBox="0 0 8 8" refX="7" refY="4" markerWidth="7" markerHeight="7" orient="auto">'
        f'<path d="M 0 0 L 8 4 L 0 8 z" fill="{colour}"/></marker>'
    )


def svg_of(frames, across):
    columns = columns_of(frames)
    drawings = [Drawing(frame, columns) for frame in frames]
    wide = max((drawing.width for drawing in drawings), default=330)
    body, y = [], 0
    for first in range(0, len(drawings), across):
        row = drawings[first : first + across]
        for index, drawing in enumerate(row):
            body.append(f'<g transform="translate({index * wide} {y})">\n{drawing.drawn()}\n</g>')
        y += max(drawing.height for drawing in row) + 14
    width = wide * min(across, max(1, len(drawings)))
    signs, signs_wide, y = legend(y + 4, width)
    width = max(width, signs_wide)
    return (
        f'<svg xmlns="http://www.w3.org/2000/svg" viewBox="0 0 {width} {y + 28}" width="{width}" height="{y + 28}" font-family="sans-serif">\n'
        f'<rect width="100%" height="100%" fill="#ffffff"/>\n<defs>{marker("ink", INK)}{marker("faint", FAINT)}</defs>\n'
        + "\n".join(body + [signs])
        + "\n</svg>"
    )
