#!/usr/bin/env python3
"""Draws the pictures of docs/pictures/ as SVG: pictures.py [--check]

- coders: size and speed of this and other coders on pictures with photon noise, from bench/tables.md, for README;
- speed: our speed divided by libaec's for each input and J, coding and decoding, from bench/tables.md;
- edits: what one edit costs by its place, from bench/tables.md;
- instructions: how the instructions for a sample fell, from bench/steps.md;
- stream, coded_data_set and interval, for docs/FORMAT.md: 48 samples and their code, a coded data set bit by bit, and the parts of
  an interval.

Each picture has colours for a dark page too. With --check nothing is written, and the script fails if a picture differs from what
it would draw.
"""

import math
import os
import re
import sys
from html import escape

TOP = os.path.join(os.path.dirname(os.path.abspath(__file__)), "..")
OUT = os.path.join(TOP, "docs", "pictures")
WIDTH = 900
# The name of each colour, and its value on a light page and on a dark one.
COLOURS = {
    "paper": ("#fff", "#0d1117"),
    "ink": ("#222", "#e6edf3"),
    "dim": ("#555", "#9da7b3"),
    "grid": ("#ddd", "#30363d"),
    "edge": ("#666", "#8b949e"),
    "coding": ("#1f6f8b", "#58a6c4"),
    "decoding": ("#b8651b", "#e3a15a"),
    "blue": ("#cfe8ef", "#1d4653"),
    "sand": ("#f6e3c5", "#5a4420"),
    "green": ("#d8ecd0", "#2c4f26"),
    "violet": ("#ead7ee", "#4b3052"),
    "grey": ("#eee", "#21262d"),
    "none": ("none", "none"),
}
SAID = ("coding", "decoding")


def rules(which):
    """Returns the colours of a light page (0) or of a dark one (1), as rules of a style sheet."""
    return "".join(f".{it}{{fill:{both[which]}}}.{it}-line{{stroke:{both[which]}}}" for it, both in COLOURS.items())


STYLE = f"<style>{rules(0)}@media (prefers-color-scheme:dark){{{rules(1)}}}</style>"


def rows_below(file, heading):
    """Returns the rows of the first table below a heading of a page, each as its cells. The first row is the head."""
    with open(os.path.join(TOP, file), encoding="utf-8") as page:
        text = page.read().split(f"\n## {heading}\n", 1)[1].split("\n## ")[0]
    table = re.search(r"(?m)(^\|.*\n)+", text).group().splitlines()
    rows = [[cell.strip() for cell in row.strip("|").split("|")] for row in table]
    return rows[:1] + rows[2:]


def text(x, y, said, anchor="start", size=14, colour="ink", more=""):
    """Returns a text in a colour."""
    return f'<text class="{colour}" x="{x:g}" y="{y:g}" text-anchor="{anchor}" font-size="{size}"{more}>{escape(said)}</text>'


def box(x, y, width, height, colour, edge="none"):
    return f'<rect class="{colour} {edge}-line" x="{x:g}" y="{y:g}" width="{width:g}" height="{height:g}"/>'


def line(x1, y1, x2, y2, colour="edge", more=""):
    return f'<line class="{colour}-line" x1="{x1:g}" y1="{y1:g}" x2="{x2:g}" y2="{y2:g}"{more}/>'


def path(points, colour):
    """Returns a line through points, with a dot on each."""
    through = " ".join(f"{x:g},{y:g}" for x, y in points)
    drawn = f'<polyline class="none {colour}-line" points="{through}" stroke-width="2"/>'
    return [drawn] + [f'<circle class="{colour}" cx="{x:g}" cy="{y:g}" r="3.5"/>' for x, y in points]


def picture(height, what, parts):
    """Returns a picture whose title says what it shows."""
    head = f'<svg xmlns="http://www.w3.org/2000/svg" width="{WIDTH}" height="{height}" viewBox="0 0 {WIDTH} {height}" '
    head += 'font-family="sans-serif" role="img">'
    lines = [head, f"<title>{escape(what)}</title>", STYLE, box(0, 0, WIDTH, height, "paper"), *parts, "</svg>"]
    return "\n".join(lines) + "\n"


def legend(y, said=SAID):
    both = zip((640, 740), SAID, said)
    return [part for x, colour, name in both for part in (box(x, y - 11, 12, 12, colour), text(x + 18, y, name))]


def stream():
    """Draws the samples of FORMAT.md's section 11, their blocks and intervals, and their code, where each bit has the same
    width."""
    left, bit, height = 130, 13, 34
    parts = [text(20, 30, "What is stored where: 48 samples, and the bytes 00 04 40 30 C2 00 08", size=18)]
    parts += [text(20, y, name) for y, name in ((72, "samples"), (114, "blocks"), (156, "intervals"), (226, "code"))]
    block, apart = 117, 8
    for number in range(6):
        x = left + number * (block + apart)
        values = "0 0 0 0 1 0 0 0" if number == 2 else "0 0 0 0 0 0 0 0"
        parts += [box(x, 50, block, height, "paper", "edge"), text(x + block / 2, 72, values, "middle", 13)]
        parts += [box(x, 92, block, height, "sand" if number % 2 == 0 else "paper", "edge")]
        parts.append(text(x + block / 2, 114, "block of J = 8", "middle", 13))
    for number in range(3):
        x, width = left + 2 * number * (block + apart), 2 * block + apart
        parts += [box(x, 134, width, height, "blue", "edge"), text(x + width / 2, 156, "interval of r = 2 blocks", "middle", 13)]
    spelled = [[("0000", "blue"), ("00000000", "sand"), ("01", "green")], [("0001", "blue"), ("00000000", "sand"), ("11000011", "green")]]
    spelled += [[("0000", "blue"), ("1", "green")], spelled[0], [("000", "grey")]]
    x, begins = left, []
    for number, parts_of_set in enumerate(spelled):
        x += 6 if number in (1, 3, 4) else 0
        begins.append(x)
        for bits, colour in parts_of_set:
            width = bit * len(bits)
            parts += [box(x, 204, width, height, colour, "edge"), text(x + width / 2, 226, bits, "middle", 12)]
            x += width
    for number, at in ((0, 0), (1, 1), (2, 3)):
        middle = left + 2 * number * (block + apart) + block
        parts.append(line(middle, 168, begins[at] + 4, 204))
    said = (
        ("blue", "how the rest is coded"),
        ("sand", "the interval's first sample, as it is"),
        ("green", "differences, or the length of a run"),
    )
    for number, (colour, words) in enumerate(said):
        parts += [box(left + 250 * number, 258, 12, 12, colour, "edge"), text(left + 18 + 250 * number, 269, words, size=13)]
    below = "An edit writes the code of the intervals that it touches anew. Not in the stream: options, count, checksum."
    parts.append(text(left, 296, below, size=13))
    return picture(312, "48 samples, their blocks and intervals, and their code", parts)


def speed():
    """Draws bars: our speed divided by libaec's, for r 128. The numbers are beside the bars' field, so that no line crosses them."""
    rows = [row for row in rows_below("bench/tables.md", "How many times as fast as libaec") if row[2] == "128"]
    left, scale, y = 230, 140, 70
    right = left + 4 * scale
    parts = [text(20, 30, "How many times as fast as libaec, r 128", size=18), *legend(30)]
    bars = []
    for number, row in enumerate(rows):
        if not number or rows[number - 1][0] != row[0]:
            y += 10 if number else 0
            bars.append(text(20, y + 15, row[0]))
        bars.append(text(left - 8, y + 15, f"J {row[1]}", "end"))
        for place, (colour, times) in enumerate(zip(SAID, row[3:])):
            bars.append(box(left, y + 10 * place, float(times) * scale, 9, colour))
            bars.append(text(right + 42 + 52 * place, y + 15, times, "end", 13, colour))
        y += 27
    for times in range(5):
        x = left + times * scale
        parts.append(line(x, 55, x, y, "ink" if times == 1 else "grid"))
        parts.append(text(x, y + 16, f"{times}", "middle", 12))
    parts.append(text(left + scale, 50, "libaec", "middle", 12))
    return picture(y + 30, "how many times as fast as libaec, for each input and J, coding and decoding", parts + bars)


def on_log(number, least, most, begin, end):
    """Returns the place of a number on a scale whose equal steps are equal ratios."""
    return begin + (end - begin) * math.log(number / least) / math.log(most / least)


def coder_rows(kind):
    """Returns for each coder its name, the size of its file in percent of the samples' bytes, and its speeds in MB/s."""
    head, *sizes = rows_below("bench/tables.md", "Other coders: sizes")
    column = head.index(kind)
    samples = int(re.search(r"\d+", head[0])[0]) * (1 << 20)
    speeds = {row[0]: (float(row[1]), float(row[4])) for row in rows_below("bench/tables.md", f"Other coders: speed, {kind}")[1:]}
    percent = {row[0]: 100 * int(row[column].replace(",", "")) / samples for row in sizes if row[column] != "-"}
    return [(name, percent[name], *speeds[name]) for name in percent]


def apart(places, least):
    """Returns places on a scale, moved as little as needed for neighbours to have a least distance."""
    order = sorted(range(len(places)), key=places.__getitem__)
    moved = list(places)
    for _ in range(200):
        for low, high in zip(order, order[1:]):
            lack = least - (moved[high] - moved[low])
            if lack > 0:
                moved[low], moved[high] = moved[low] - lack / 2, moved[high] + lack / 2
    return moved


def coders_of(kind, top, bottom):
    """Draws for one kind of pictures a line for each coder, from its speed of coding (dot) to that of decoding (ring), at the height of its
    size. The names are beside the field, joined to their lines."""
    rows = coder_rows(kind)
    left, right, slowest, fastest = 60, 640, 0.4, 1000
    smallest, largest = 5 * int(min(row[1] for row in rows) // 5), 5 * math.ceil(max(row[1] for row in rows) / 5)
    across = lambda mb: on_log(mb, slowest, fastest, left, right)
    down = lambda percent: top + (bottom - top) * (percent - smallest) / (largest - smallest)
    parts = [text(20, top - 16, f"{kind.capitalize()}: % of the samples' bytes", size=14)]
    for percent in range(smallest, largest + 1, 5):
        parts += [line(left, down(percent), right, down(percent), "grid"), text(left - 8, down(percent) + 4, f"{percent} %", "end", 12)]
    for mb in (1, 10, 100, 1000):
        parts += [line(across(mb), top, across(mb), bottom, "grid"), text(across(mb), bottom + 16, f"{mb} MB/s", "middle", 12)]
    for (name, percent, coding, decoding), beside in zip(rows, apart([down(row[1]) for row in rows], 17)):
        colour, y, ends = "coding" if name.startswith("aec") else "edge", down(percent), (across(coding), across(decoding))
        parts.append(line(max(ends) + 5, y, right + 14, beside, "dim", ' stroke-dasharray="1 4"'))
        parts.append(line(ends[0], y, ends[1], y, colour))
        parts.append(f'<circle class="{colour} {colour}-line" cx="{ends[0]:.1f}" cy="{y:.1f}" r="4"/>')
        parts.append(f'<circle class="paper {colour}-line" cx="{ends[1]:.1f}" cy="{y:.1f}" r="4" stroke-width="1.5"/>')
        ink = "coding" if name.startswith("aec") else "ink"
        parts.append(text(right + 18, round(beside + 4, 1), f"{percent:.1f} %  {name}", size=13, colour=ink))
    return parts


def coders():
    """Draws the size against the speed of coders, for each kind of pictures with photon noise."""
    kinds = rows_below("bench/tables.md", "Other coders: sizes")[0][1:3]
    parts = [text(20, 30, "Size and speed on pictures with photon noise: higher is smaller, further right is faster", size=18)]
    parts += ['<circle class="edge edge-line" cx="26" cy="55" r="4"/>', text(36, 60, "coding", size=13)]
    parts += ['<circle class="paper edge-line" cx="106" cy="55" r="4" stroke-width="1.5"/>', text(116, 60, "decoding", size=13)]
    parts.append(text(200, 60, "speed: MB of samples in a second of one processor", size=13))
    for number, kind in enumerate(kinds):
        parts += coders_of(kind, 110 + 320 * number, 350 + 320 * number)
    return picture(60 + 320 * len(kinds), "size against speed of coders on pictures with photon noise", parts)


def axes(left, right, top, bottom, most, steps):
    """Returns lines for `steps` steps up to the greatest number, each with its number."""
    parts = []
    for number in range(steps + 1):
        y = bottom - number * (bottom - top) / steps
        parts += [line(left, y, right, y, "grid"), text(left - 8, y + 5, f"{most * number / steps:g}", "end", 12)]
    return parts


def edits():
    """Draws lines: what one edit costs by its place. Cheap edits and the others have scales of their own."""
    head, *rows = rows_below("bench/tables.md", "One edit, by its place")
    top, bottom, width = 84, 300, 330
    parts = [text(20, 30, "Milliseconds of one edit, by its place in 64 MiB of samples", size=18)]
    for left, names, most in ((70, rows[:2], 5), (520, rows[2:], 500)):
        parts += axes(left, left + width, top, bottom, most, 5)
        for colour, (name, *costs) in zip(SAID, names):
            step = width / (len(costs) - 1)
            parts += path([(left + i * step, bottom - float(cost) * (bottom - top) / most) for i, cost in enumerate(costs)], colour)
        for place, (colour, row) in enumerate(zip(SAID, names)):
            parts += [box(left + 185 * place, 54, 12, 12, colour), text(left + 18 + 185 * place, 65, row[0], size=13)]
        for i, part in enumerate(head[1:]):
            parts.append(text(left + i * width / (len(head) - 2), bottom + 18, part, "middle", 12))
        parts.append(text(left + width / 2, bottom + 36, "samples before the place", "middle", 12))
    parts.append(text(70, bottom + 62, "The code after the place is moved.", size=13))
    parts.append(text(520, bottom + 62, "All samples after the place are decoded and coded.", size=13))
    return picture(bottom + 78, "what one edit costs by its place", parts)


def instructions():
    """Draws lines on a scale of ratios: instructions for each sample, for one state of the program after the other."""
    rows = rows_below("bench/steps.md", "The steps")[1:]
    states, other = rows[:-1], rows[-1]
    left, right, top, bottom = 60, WIDTH - 40, 60, 340
    step = (right - left) / (len(states) - 1)
    down = lambda count: on_log(count, 25, 500, bottom, top)
    parts = [text(20, 30, "Instructions for each sample, step after step", size=18), *legend(30)]
    for count in (25, 50, 100, 200, 400):
        parts += [line(left, down(count), right, down(count), "grid"), text(left - 8, down(count) + 5, str(count), "end", 12)]
    for column, colour in enumerate(SAID, 1):
        known = [(number, int(row[column])) for number, row in enumerate(states) if row[column]]
        parts += path([(left + number * step, down(count)) for number, count in known], colour)
    last = [row for row in states if row[1]][-1][1], [row for row in states if row[2]][-1][2]
    says = f"now {last[0]} in coding and {last[1]} in decoding; libaec {other[1]} and {other[2]}"
    parts.append(text(right, down(400) + 20, says, "end", 14))
    parts.append(text(left, bottom + 24, "earliest step", size=12))
    parts.append(text(right, bottom + 24, "today", "end", 12))
    said = "one dot for each step of bench/steps.md; equal heights are equal ratios"
    parts.append(text((left + right) / 2, bottom + 24, said, "middle", 12))
    return picture(bottom + 40, "how the instructions for each sample fell, coding and decoding", parts)


def coded_data_set():
    """Draws the bits of one coded data set by sample splitting with k = 1."""
    strip = [("010", "identifier: sample splitting with k = 1", "blue"), ("00000000", "reference sample 0, in n = 8 bits", "sand")]
    strip.append(("1010101010101", "fs(v / 2, rounded down) of each of seven values: fs(0), then six times fs(1)", "green"))
    strip += [("1000000", "the low bit of each of the values 1 2 2 2 2 2 2", "violet"), ("0", "fills the last byte", "grey")]
    side, x, y, bit = 26, 30, 80, 0
    parts = [text(20, 30, "One coded data set: the bytes 40 15 55 80", size=18)]
    for number, (bits, said, fill) in enumerate(strip):
        below = y + 60 + 28 * (len(strip) - 1 - number)
        parts += [text(x + 4, y - 8, str(bit), "middle", 11, "dim"), line(x + 6, y + side, x + 6, below - 5)]
        for one in bits:
            parts += [box(x, y, side, side, fill, "edge"), text(x + side / 2, y + 18, one, "middle")]
            x, bit = x + side, bit + 1
        turned = x > 700
        at = x - side * len(bits) + 6
        parts.append(text(at - 4 if turned else at + 4, below, said, "end" if turned else "start", 13))
    return picture(y + 60 + 28 * len(strip), "a coded data set bit by bit", parts)


def cells(begin, end, words, fill):
    """Returns boxes of equal width from one place to another, with a word in each. A reference block (the word 0) is green."""
    width = (end - begin) / len(words)
    return [(begin + i * width, width, word, "green" if word == "0" else fill) for i, word in enumerate(words)]


def interval():
    """Draws an interval of 130 blocks, its segments and blocks."""
    borders = (120, 370, 620, 700, 880)
    parts = [text(20, 30, "An interval of 130 blocks, in segments of at most 64", size=18)]
    intervals = cells(120, 700, ["interval of 130 blocks: S = 130 J samples"], "blue") + cells(700, 880, ["next interval .."], "grey")
    segments, blocks = [], []
    counts = ("64 blocks", "64 blocks", "2 blocks", "64 blocks ..")
    numbers = ("0 1 .. 63", "64 65 .. 127", "128 129", "0 1 ..")
    for i in range(4):
        begin, end = borders[i], borders[i + 1]
        segments += cells(begin, end, [counts[i]], "sand" if i < 3 else "grey")
        blocks += cells(begin, end, numbers[i].split(), "paper")
    for y, name, boxes in ((70, "intervals", intervals), (120, "segments", segments), (170, "blocks", blocks)):
        parts.append(text(20, y + 23, name))
        for begin, width, said, fill in boxes:
            parts += [box(begin, y, width, 36, fill, "edge"), text(begin + width / 2, y + 23, said, "middle", 13)]
    parts.append(text(120, 235, "Blocks 0 (green) are reference blocks: the reference sample, then the other J - 1 values.", size=13))
    parts.append(text(120, 257, "No run of zero blocks crosses a segment's end. Segments begin at blocks 0, 64 and 128.", size=13))
    return picture(275, "an interval, its segments and its blocks", parts)


def main():
    stale = 0
    drawings = (coders, stream, speed, edits, instructions, coded_data_set, interval)
    for draw in drawings:
        path, drawn = os.path.join(OUT, draw.__name__ + ".svg"), draw()
        if sys.argv[1:] != ["--check"]:
            with open(path, "w", encoding="utf-8") as file:
                file.write(drawn)
        else:
            with open(path, encoding="utf-8") as file:
                stale += file.read() != drawn
    if sys.argv[1:] == ["--check"]:
        print(f"pictures: {len(drawings) - stale} passed, {stale} failed" + (": run make pictures" if stale else ""))
    return 1 if stale else 0


if __name__ == "__main__":
    sys.exit(main())
