#!/usr/bin/env python3
"""Draws runs that `prem run --intervals` tells as one SVG picture, a panel each, with a row for each task.

    timeline.py TITLE TASKS REPORT [TITLE TASKS REPORT ..] > PICTURE

TASKS is NAME:PERIOD:JOBS for each task, joined by commas; REPORT is a file with the report. Compatible intervals are light, predictable ones
dark; a mark over a row is a release, and the line behind it shows how long the job waits for its first interval.
"""
import sys
from html import escape

WIDTH, LEFT, ROW, HEAD = 900, 90, 44, 46
LIGHT, DARK, INK, WAIT = "#9ecae1", "#08519c", "#222222", "#d94801"


def intervals_of(report):
    with open(report, encoding="utf-8") as file:
        words = [line.split() for line in file if line.startswith("interval ")]
    return [(task, kind, int(start), int(length)) for _, task, kind, start, length in words]


def panel(title, tasks, told, top, end):
    at = lambda cycle: LEFT + (WIDTH - LEFT - 20) * cycle / end
    out = [f'<text x="10" y="{top + 18}" font-weight="bold">{escape(title)}</text>']
    for row, (name, period, jobs) in enumerate(tasks):
        y = top + HEAD + row * ROW
        out.append(f'<text x="10" y="{y + 16}">{escape(name)}</text>')
        out.append(f'<line x1="{LEFT}" y1="{y + 22}" x2="{WIDTH - 20}" y2="{y + 22}" stroke="#cccccc"/>')
        own = [it for it in told if it[0] == name]
        for _, kind, start, length in own:
            note = f"{name}: {kind} interval of {length} cycles from {start} on"
            colour = DARK if kind == "predictable" else LIGHT
            out.append(f'<rect x="{at(start):.1f}" y="{y + 4}" width="{max(length * (WIDTH - LEFT - 20) / end, 1):.1f}" height="18" fill="{colour}"><title>{escape(note)}</title></rect>')
        for job in range(jobs):
            release = job * period
            first = min((start for _, _, start, _ in own if start >= release), default=release)
            x = at(release)
            out.append(f'<path d="M{x:.1f} {y - 8} l-4 -7 h8 z" fill="{INK}"><title>{escape(name)}: release in cycle {release}</title></path>')
            if first - release > 1000:
                out.append(f'<line x1="{x:.1f}" y1="{y - 3}" x2="{at(first):.1f}" y2="{y - 3}" stroke="{WAIT}" stroke-width="3"><title>waits {first - release} cycles</title></line>')
    return out


def main():
    panels = [sys.argv[at : at + 3] for at in range(1, len(sys.argv), 3)]
    read = [(title, [(n, int(p), int(j)) for n, p, j in (it.split(":") for it in tasks.split(","))], intervals_of(report)) for title, tasks, report in panels]
    end = max(start + length for _, _, told in read for _, _, start, length in told)
    out, top = [], 0
    for title, tasks, told in read:
        out += panel(title, tasks, told, top, end)
        top += HEAD + ROW * len(tasks) + 10
    step = 10 ** (len(str(end)) - 1)
    for cycle in range(0, end + 1, step):
        x = LEFT + (WIDTH - LEFT - 20) * cycle / end
        out.append(f'<line x1="{x:.1f}" y1="{top - 4}" x2="{x:.1f}" y2="{top + 2}" stroke="{INK}"/><text x="{x:.1f}" y="{top + 16}" text-anchor="middle">{cycle}</text>')
    out.append(f'<text x="10" y="{top + 16}">cycles</text>')
    print(f'<svg xmlns="http://www.w3.org/2000/svg" viewBox="0 0 {WIDTH} {top + 26}" font-family="sans-serif" font-size="13" fill="{INK}">')
    print(f'<rect width="{WIDTH}" height="{top + 26}" fill="#ffffff"/>')
    print("\n".join(out) + "\n</svg>")


if __name__ == "__main__":
    main()
