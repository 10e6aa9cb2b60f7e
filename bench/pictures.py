#!/usr/bin/env python3
"""Draws the pictures of the pages.

    bench/pictures.py [FOLDER]     draws overview.svg, trust.svg, and speed.svg from figures.json [docs]

bench/program.py saves the figures: `note` says how they were measured, and each of `tables` has a `task` and its `programs`, with their
`name`, `seconds` and what else was measured. The same figures always draw the same bytes.
"""
import argparse
import json
import math
import os
import re
import textwrap
from xml.sax.saxutils import escape

ROOT = os.path.dirname(os.path.dirname(os.path.abspath(__file__)))
DEFAULT = "frameq, 2 workers"
# The tasks of speed.svg.
SHOWN = ("filter and a computed column", "group by one of 1,000 texts: sum, count, min", "left join with a small file on a text")

WIDTH = 900
SANS, MONO = "Helvetica, Arial, sans-serif", "Menlo, Consolas, monospace"
INK, GREY, FAINT, PAPER, EDGE = "#1f2328", "#59636e", "#d8dee4", "#ffffff", "#d0d7de"
# Colours that colour-blind readers can tell apart (Okabe and Ito), and pale ones to write on.
BLUE, ORANGE, GREEN, RED = "#0072b2", "#e69f00", "#009e73", "#d55e00"
OTHERS = (ORANGE, GREEN, "#cc79a7", "#56b4e9", RED, "#999999")
PALE_BLUE, PALE_GREEN, PALE_ORANGE, PALE_GREY = "#e6f1f8", "#e5f5f0", "#fdf3e0", "#f3f4f6"


# ---- figures

def save(figures, path):
    """Writes the figures, with a line for each program, so that a change of a figure is a change of a line."""
    tables = []
    for table in figures["tables"]:
        programs = ",\n".join("      " + json.dumps(program) for program in table["programs"])
        tables.append(f'    {{"task": {json.dumps(table["task"])}, "programs": [\n{programs}\n    ]}}')
    with open(path, "w", encoding="utf-8") as file:
        file.write(f'{{\n  "note": {json.dumps(figures["note"])},\n  "tables": [\n' + ",\n".join(tables) + "\n  ]\n}\n")


def load(path):
    with open(path, encoding="utf-8") as file:
        return json.load(file)


# ---- shapes

def text(x, y, words, anchor="start", size=13, weight="normal", fill=INK, font=SANS):
    return (f'<text x="{x:g}" y="{y:g}" text-anchor="{anchor}" font-family="{font}" font-size="{size}" font-weight="{weight}" '
            f'fill="{fill}" xml:space="preserve">{escape(words)}</text>')


def lines(x, y, all_words, step=19, **how):
    """Lines of text, one below the other."""
    return [text(x, y + number * step, words, **how) for number, words in enumerate(all_words)]


def rectangle(x, y, width, height, fill, stroke="none", corner=0):
    return f'<rect x="{x:g}" y="{y:g}" width="{width:g}" height="{height:g}" rx="{corner}" fill="{fill}" stroke="{stroke}"/>'


def arrow(x, y, to_x, to_y, stroke=GREY):
    """A line that ends in a head."""
    angle = math.atan2(to_y - y, to_x - x)
    at = lambda turn: f"{to_x - 9 * math.cos(angle + turn):.1f},{to_y - 9 * math.sin(angle + turn):.1f}"
    return (f'<path d="M{x:g},{y:g} L{to_x:g},{to_y:g} M{at(0.5)} L{to_x:g},{to_y:g} L{at(-0.5)}" '
            f'fill="none" stroke="{stroke}" stroke-width="2"/>')


def picture(title, description, height, parts):
    """The text of an SVG, on paper of its own, for pages that are light or dark."""
    return "\n".join([
        f'<svg xmlns="http://www.w3.org/2000/svg" viewBox="0 0 {WIDTH} {height:g}" width="{WIDTH}" height="{height:g}"'
        ' role="img" aria-labelledby="title description">',
        f'<title id="title">{escape(title)}</title>',
        f'<desc id="description">{escape(description)}</desc>',
        rectangle(0.5, 0.5, WIDTH - 1, height - 1, PAPER, EDGE, 8),
        *parts, "</svg>", ""])


# ---- the speed beside other programs

def factors(table):
    """How many times the seconds of frameq each program takes on a task, the least first; or None if frameq was not timed."""
    seconds = {program["name"]: program["seconds"] for program in table["programs"]}
    own = seconds.get(DEFAULT)
    others = {name: taken for name, taken in seconds.items() if not re.search(r", \d+ workers?$", name)}
    return own and sorted([("frameq", 1.0), *((name, taken / own) for name, taken in others.items())], key=lambda one: one[1])


def versions(figures):
    """The other programs with their versions, each once."""
    found = {program["name"]: re.search(r"\d+(\.\d+)+( with .*)?", program.get("version") or "")
             for table in figures["tables"] for program in table["programs"] if not re.search(r", \d+ workers?$", program["name"])}
    return ", ".join(f"{name} {version[0]}" if version else name for name, version in found.items())


def speed(figures):
    """The times of three tasks as multiples of frameq's. The axis is logarithmic, so that near 1 the programs stand apart."""
    tables = [table for table in figures["tables"] if table["task"] in SHOWN] or figures["tables"][:3]
    rows = [(table["task"], factors(table)) for table in tables if factors(table)]
    names = list(dict.fromkeys(name for _, row in rows for name, _ in row if name != "frameq"))
    colours = {"frameq": BLUE, **{name: OTHERS[number % len(OTHERS)] for number, name in enumerate(names)}}
    ends = [factor for _, row in rows for _, factor in row]
    first, last = math.floor(math.log2(min(ends))), math.log2(max(ends)) + 0.3
    left, right, top, tall = 296, WIDTH - 40, 58, 52
    bottom = top + tall * len(rows)
    at = lambda factor: round(left + (math.log2(factor) - first) * (right - left) / (last - first), 1)

    title = "Time of whole plans, as multiples of frameq's"
    parts = [text(20, 30, title, size=17, weight="bold"),
             text(20, 50, "frameq with 2 workers = 1; left is faster, and each mark is twice the one before", size=12, fill=GREY)]
    marks = [2.0 ** power for power in range(first, math.floor(last) + 1)]
    parts += [text(at(mark), bottom + 16, f"{mark:g}", "middle", size=12, fill=GREY) for mark in marks]
    for number, (task, row) in enumerate(rows):
        y = top + tall * (number + 0.5)
        words = textwrap.wrap(task, 28)
        parts += lines(left - 46, y + 5 - 8.5 * (len(words) - 1), words, 17, anchor="end")
        parts.append(rectangle(left - 10, y - 0.5, right - left + 20, 1, FAINT))
        parts += [rectangle(at(mark) - 0.5, y - 6, 1, 12, GREY) for mark in marks]
        for place, (name, factor) in enumerate(row):
            label = name if name == "frameq" else f"{name} {factor:.1f}"
            parts += [f'<circle cx="{at(factor):g}" cy="{y:g}" r="6" fill="{colours[name]}"/>',
                      text(at(factor), y + 20 if place % 2 else y - 11, label, "middle", 12, "bold" if name == "frameq" else "normal")]
    parts += lines(20, bottom + 40, [f"{figures['note']}.", f"{versions(figures)}."], 16, size=11, fill=GREY)
    said = "; ".join(f"{task}: " + ", ".join(f"{name} {factor:.1f}" for name, factor in row) for task, row in rows)
    description = f"Dots on a logarithmic axis: the time of each program divided by frameq's with 2 workers. {said}. {figures['note']}."
    return picture(title, description, bottom + 70, parts)


# ---- what goes in and what comes out

def sheet(x, y, width, title, all_words, fill, stroke, height):
    """A box with a heading and lines of fixed width."""
    return [rectangle(x, y, width, height, fill, stroke, 5), text(x + 12, y + 22, title, weight="bold"),
            *lines(x + 12, y + 42, all_words, 16, size=11, font=MONO)]


def overview():
    """From a plan and CSV files to a report or a fault."""
    title = "A plan and CSV files go in; a report or one fault comes out"
    parts = [
        text(20, 30, title, size=17, weight="bold"),
        *sheet(20, 50, 250, "a plan, in JSON or Python",
               ["filter    not returned", "compute   units * unit_cents", "group by  month, region"], PALE_GREY, EDGE, 88),
        rectangle(32, 158, 250, 78, PALE_GREY, EDGE, 5), rectangle(26, 164, 250, 78, PALE_GREY, EDGE, 5),
        *sheet(20, 170, 250, "CSV files", ["month,region,product,units,..", "2024-01,north,kettle,3,.."], PALE_GREY, EDGE, 78),
        arrow(272, 96, 338, 128), arrow(284, 200, 338, 172),
        rectangle(342, 92, 186, 116, PALE_BLUE, BLUE, 5), text(435, 124, "frameq", "middle", 16, "bold", BLUE),
        *lines(435, 150, ["checks the plan", "reads every field", "runs the steps"], anchor="middle"),
        arrow(530, 128, 596, 98, GREEN), arrow(530, 172, 596, 206, RED),
        *sheet(600, 50, 280, "the whole report",
               ["month,region,orders,units,cents,..", "2024-01,north,2,4,11469,..", "2024-01,south,1,1,2490,.."], PALE_GREEN, GREEN, 88),
        text(740, 157, "or", "middle", fill=GREY),
        *sheet(600, 170, 280, "no report, and one fault by name", ["frameq: file 1, row 3, column 3:", "bad cell"], PALE_ORANGE, RED, 78),
    ]
    description = ("A plan, in JSON or Python, and CSV files lead into frameq. It checks the plan, reads every field and runs the steps. "
                   "Two arrows lead out: one to the whole report, the other to no report and one fault by name, such as "
                   "frameq: file 1, row 3, column 3: bad cell.")
    return picture(title, description, 268, parts)


# ---- what is proved, tested and trusted

TRUSTED = (("the definitions", "say what users want"), ("the prover", "and its logic"), ("the compiler", "(LLVM)"),
           ("the standard library", "and the ported crates"), ("the C library and the", "operating system"))


def trust():
    """What is proved and what is tested, on top of what is trusted."""
    title = "What is proved, tested and trusted"
    proved = ["what a successful run prints is what the plan means", "a fault is the one that the plan and its files have",
              "a run that ends in such a fault prints nothing", "no panic, no overflow, no index out of range"]
    tested = ["a run ends (also model-checked)", "--workers and --batch reach the run", "the wording of --check, --draft and --details",
              "the Python package, and plans as SQL"]
    parts = [text(20, 30, title, size=17, weight="bold"),
             rectangle(20, 46, 480, 126, PALE_GREEN, GREEN, 5),
             text(34, 70, "Proved, for every input, batch size and interleaving", weight="bold"),
             *lines(34, 94, proved, 20),
             rectangle(512, 46, 368, 126, PALE_ORANGE, ORANGE, 5), text(526, 70, "Only tested", weight="bold"),
             *lines(526, 94, tested, 20),
             rectangle(20, 184, 860, 92, PALE_GREY, EDGE, 5), text(34, 206, "Trusted: all of this rests on it", weight="bold")]
    for number, words in enumerate(TRUSTED):
        x = 34 + number * 168
        parts += [rectangle(x, 216, 160, 48, PAPER, GREY, 3), *lines(x + 80, 237, words, 17, anchor="middle", size=12)]
    description = (f"Two boxes stand on a row of five. Proved, for every input, batch size and interleaving: {'; '.join(proved)}. "
                   f"Only tested: {'; '.join(tested)}. Trusted: {'; '.join(' '.join(words) for words in TRUSTED)}.")
    return picture(title, description, 288, parts)


# ---- files

def write(folder, name, drawn):
    with open(os.path.join(folder, name), "w", encoding="utf-8") as file:
        file.write(drawn)


def draw(path):
    """Draws the figures in a file, as `speed.svg` in its folder."""
    write(os.path.dirname(path), "speed.svg", speed(load(path)))


def main():
    parser = argparse.ArgumentParser(description=__doc__.splitlines()[0])
    parser.add_argument("folder", nargs="?", default=os.path.join(ROOT, "docs"), help="with figures.json, where the pictures go [docs]")
    folder = parser.parse_args().folder
    draw(os.path.join(folder, "figures.json"))
    write(folder, "overview.svg", overview())
    write(folder, "trust.svg", trust())


if __name__ == "__main__":
    main()
