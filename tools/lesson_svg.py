#!/usr/bin/env python3
"""lesson_svg.py LESSON [ANSWERS]: draws the dumps of a lesson as an SVG, on standard output.

LESSON is the script, ANSWERS what `lesson` wrote for it (standard input without it):

    target/bin/lesson demos/05-a-rig-falls-asleep.txt | tools/lesson_svg.py demos/05-a-rig-falls-asleep.txt > rig.svg

Each dump is a panel. An island is a box around its bodies, grey while it sleeps; a round is a body, a square a fixed one, a dashed round
one that is not enabled. A thin line is a contact, a thick one a joint. A short one below a body is a link to a body that is in no island with it, as a fixed one,
whose slot stands there; it is dashed where that handle names no live body. What was said above the dump in the script stands over the
panel.
"""
import html
import math
import sys

BODY, GAP, PAD, TEXT = 15, 56, 16, 13
COLOURS = ["#4878a8", "#b0643c", "#5a8f4a", "#8a5a9c", "#a8862c", "#3f8f8f", "#a84860", "#6a6ab0"]
GREY = "#9a9a9a"


def numbers(word):
    return [int(part) for part in word.split(":")]


def handles(ends):
    return (ends[0], ends[1]), (ends[2], ends[3])


class Dump:
    """The state, read off the lines of one dump."""

    def __init__(self, lines):
        self.islands, self.bodies, self.rest = [], {}, []
        for line in lines:
            words = line.split()
            if words[0] == "island":
                self.islands.append({"number": int(words[1]), "count": words[3], "asleep": words[7] == "1", "links": []})
            elif words[0] == "bodies":
                self.islands[-1]["bodies"] = [tuple(numbers(word)) for word in words[1:]]
            elif words[0] == "contacts":
                for word in words[1:]:
                    self.islands[-1]["links"].append(("contact", handles(numbers(word)[1:])))
            elif words[0] == "joints":
                for word in words[1:]:
                    ends = handles([int(part) for part in word.split(":")[3:]])
                    self.islands[-1]["links"].append(("joint", ends))
            elif words[0] == "body":
                slot, generation, fixed, enabled, sleeping, _, island, _, _ = (int(w) if w.isdigit() else w for w in words[1:])
                self.bodies[slot, generation] = {"fixed": fixed, "enabled": enabled, "island": island}
            elif words[0] in ("pending", "stamp", "scan", "journal", "free"):
                self.rest.append(line)


def read_dumps(lines):
    block = None
    for line in lines:
        if line.startswith("islands "):
            block = []
        elif line == "end" and block is not None:
            yield Dump(block)
            block = None
        elif block is not None:
            block.append(line)


def read_captions(lines):
    """For each dump of the script, the comments since the one before."""
    said = []
    for line in lines:
        if line.startswith("#"):
            said.append(line[1:].strip())
        elif line == "dump":
            yield said
            said = []


def wrap(text, width):
    line = ""
    for word in text.split():
        if line and len(line) + len(word) >= width:
            yield line
            line = word
        else:
            line = f"{line} {word}".strip()
    if line:
        yield line


class Panel:
    """One dump, drawn from `top` downward."""

    def __init__(self, dump, caption, top, width):
        self.dump, self.top, self.width, self.out, self.places = dump, top, width, [], {}
        y = top + PAD
        for line in (line for said in caption for line in wrap(said, width // 7)):
            y += 17
            self.text(PAD, y, line, size=TEXT)
        self.bottom = self.groups(y + PAD)
        self.links()
        self.rounds()
        self.bottom += 20
        notes = [line for line in dump.rest if line not in ("journal", "free", "pending none", "stamp 0", "scan closed")]
        for line in wrap("; ".join(notes), width // 6):
            self.text(PAD, self.bottom, line, size=11, fill="#555")
            self.bottom += 15

    def text(self, x, y, words, size=12, fill="#222", anchor="start"):
        self.out.append(f'<text x="{x:.0f}" y="{y:.0f}" font-size="{size}" fill="{fill}" text-anchor="{anchor}">{html.escape(words)}</text>')

    def groups(self, y):
        """Boxes for the islands, and one without a frame for the bodies in none; gives the y below them."""
        x, low = PAD, y
        loose = [handle for handle, body in self.dump.bodies.items() if body["island"] == 4294967295]
        groups = [(island["bodies"], island) for island in self.dump.islands]
        if loose:
            groups.append((loose, None))
        for bodies, island in groups:
            columns = max(1, min(6, math.ceil(math.sqrt(len(bodies)))))
            rows = math.ceil(len(bodies) / columns)
            wide, high = max(columns * GAP, 96) + 12, rows * GAP + 30
            if x + wide > self.width - PAD:
                x, y = PAD, low + PAD
            if island is not None:
                colour = GREY if island["asleep"] else COLOURS[island["number"] % len(COLOURS)]
                self.out.append(f'<rect x="{x}" y="{y:.0f}" width="{wide}" height="{high}" rx="9" fill="{colour}" fill-opacity="0.15" stroke="{colour}"/>')
                label = f"island {island['number']}" + (" sleeps" if island["asleep"] else "") + (f" +{island['count']}" if island["count"] != "0" else "")
                self.text(x + 8, y + 16, label, size=12, fill=colour)
            else:
                self.text(x + 8, y + 16, "in no island", size=12, fill="#555")
            for number, handle in enumerate(bodies):
                row, column = divmod(number, columns)
                # Every second row is shifted a little, so that links between neighbours of neighbours show.
                self.places[handle] = (x + 6 + GAP / 2 + column * GAP + (row % 2) * 9 - 4, y + 24 + GAP / 2 + row * GAP + (column % 2) * 7 - 3)
            low = max(low, y + high)
            x += wide + PAD
        return low

    def links(self):
        for island in self.dump.islands:
            stubs = {}
            for kind, ends in island["links"]:
                wide = 4 if kind == "joint" else 1.5
                inside = [end for end in ends if end in island["bodies"]]
                if len(inside) == 2:
                    self.line(self.places[ends[0]], self.places[ends[1]], wide)
                elif inside:
                    # The other end is fixed, dead or elsewhere: a stub with its name.
                    other = ends[1] if inside[0] == ends[0] else ends[0]
                    number = stubs[inside[0]] = stubs.get(inside[0], -1) + 1
                    x, y = self.places[inside[0]]
                    there = (x - 8 + 14 * number, y + BODY + 9)
                    self.line((x, y), there, wide, "" if other in self.dump.bodies else ' stroke-dasharray="3 2"')
                    self.text(there[0], there[1] + 7, "-" if other[0] == 4294967295 else str(other[0]), size=9, fill="#444", anchor="middle")

    def line(self, start, end, wide, dash=""):
        (x1, y1), (x2, y2) = start, end
        self.out.append(f'<line x1="{x1:.0f}" y1="{y1:.0f}" x2="{x2:.0f}" y2="{y2:.0f}" stroke="#444" stroke-opacity="0.6" stroke-width="{wide}"{dash}/>')

    def rounds(self):
        asleep = {handle for island in self.dump.islands if island["asleep"] for handle in island["bodies"]}
        for handle, (x, y) in self.places.items():
            body = self.dump.bodies.get(handle, {"fixed": 0, "enabled": 1, "island": 0})
            is_loose = body["island"] == 4294967295
            colour = GREY if handle in asleep else "#ffffff" if is_loose else COLOURS[body["island"] % len(COLOURS)]
            dash = "" if body["enabled"] else ' stroke-dasharray="3 2"'
            if body["fixed"]:
                self.out.append(f'<rect x="{x - BODY:.0f}" y="{y - BODY:.0f}" width="{2 * BODY}" height="{2 * BODY}" fill="{colour}" stroke="#222"{dash}/>')
            else:
                self.out.append(f'<circle cx="{x:.0f}" cy="{y:.0f}" r="{BODY}" fill="{colour}" stroke="#222"{dash}/>')
            slot, generation = handle
            self.text(x, y + 4, str(slot) if generation == 0 else f"{slot}.{generation}", size=12, fill="#222" if is_loose else "#fff", anchor="middle")


def draw(dumps, captions, width=860):
    top, parts = 0, []
    for number, dump in enumerate(dumps):
        panel = Panel(dump, captions[number] if number < len(captions) else [], top, width)
        parts += panel.out
        top = panel.bottom + 6
        parts.append(f'<line x1="0" y1="{top:.0f}" x2="{width}" y2="{top:.0f}" stroke="#ccc"/>')
    head = f'<svg xmlns="http://www.w3.org/2000/svg" width="{width}" height="{top:.0f}" viewBox="0 0 {width} {top:.0f}" font-family="sans-serif">'
    return "\n".join([head, f'<rect width="{width}" height="{top:.0f}" fill="#fff"/>'] + parts + ["</svg>"])


def main():
    if len(sys.argv) not in (2, 3) or sys.argv[1] in ("-h", "--help"):
        sys.exit(__doc__)
    try:
        with open(sys.argv[1]) as file:
            captions = list(read_captions(file.read().splitlines()))
        if len(sys.argv) == 3:
            with open(sys.argv[2]) as file:
                answers = file.read()
        else:
            answers = sys.stdin.read()
    except OSError as error:
        sys.exit(f"lesson_svg.py: cannot read {error.filename}: {error.strerror}")
    dumps = list(read_dumps(answers.splitlines()))
    if not dumps:
        sys.exit("lesson_svg.py: no dump among the answers; put the line `dump` where a picture is wanted")
    print(draw(dumps, captions))


main()
