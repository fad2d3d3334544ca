#!/usr/bin/env python3
"""Draws the crates of crates.txt to crates.svg: each above those that it stands on. What follows from other lines is left out."""
import os
import sys

HERE = os.path.dirname(os.path.realpath(__file__))
TOP = os.path.dirname(os.path.dirname(HERE))
sys.path.insert(0, os.path.join(TOP, "bin"))
sys.dont_write_bytecode = True

import building  # noqa: E402

WIDTH, HEIGHT, ACROSS, DOWN, EDGE = 104, 28, 124, 84, 20


def graph():
    """Which crates each crate stands on."""
    with open(os.path.join(TOP, "crates.txt"), encoding="utf-8") as lines:
        rows = [line.partition("#")[0].partition(":") for line in lines]
    stands_on = {crate.split()[0]: others.split() for crate, colon, others in rows if colon}
    return {crate: [other for other in others if other in stands_on] for crate, others in stands_on.items()}


def all_below(stands_on, crate):
    below = set()
    for other in stands_on[crate]:
        below |= {other} | all_below(stands_on, other)
    return below


def reduced(stands_on):
    """The graph without the lines that follow from others."""
    return {
        crate: [other for other in others if not any(other in all_below(stands_on, third) for third in others)]
        for crate, others in stands_on.items()
    }


def levels(stands_on):
    """The crates level by level, lowest first: each right below the lowest crate that stands on it."""
    users = {crate: [user for user in stands_on if crate in stands_on[user]] for crate in stands_on}
    depth = {}

    def least(crate):
        return 1 + max((least(other) for other in stands_on[crate]), default=-1)

    def of(crate):
        if crate not in depth:
            depth[crate] = min((of(user) - 1 for user in users[crate]), default=least(crate))
        return depth[crate]

    found = [[] for _ in range(1 + max(of(crate) for crate in stands_on))]
    for crate in stands_on:
        found[depth[crate]].append(crate)
    return found


def arranged(stands_on, rows):
    """The place of each crate in its row, near those that it is joined with."""
    joined = {crate: set(others) for crate, others in stands_on.items()}
    for crate, others in stands_on.items():
        for other in others:
            joined[other].add(crate)
    widest = max(len(row) for row in rows)
    across = {crate: (at + 0.5) * widest / len(row) for row in rows for at, crate in enumerate(row)}
    for _ in range(30):
        for row in rows:
            middle = lambda crate: sum(across[other] for other in joined[crate]) / max(len(joined[crate]), 1)
            row.sort(key=lambda crate: (middle(crate), crate))
            for at, crate in enumerate(row):
                across[crate] = (at + 0.5) * widest / len(row)
    return across, widest


def drawn():
    stands_on = reduced(graph())
    rows = levels(graph())
    across, widest = arranged(stands_on, rows)
    x = {crate: EDGE + across[crate] * ACROSS for crate in stands_on}
    y = {crate: EDGE + (len(rows) - 1 - depth) * DOWN for depth, row in enumerate(rows) for crate in row}
    width, height = 2 * EDGE + widest * ACROSS, 2 * EDGE + (len(rows) - 1) * DOWN + HEIGHT
    in_program = {crate for crate, _ in building.crates_below()}
    lines = [
        f'<svg xmlns="http://www.w3.org/2000/svg" width="{width:g}" height="{height:g}" viewBox="0 0 {width:g} {height:g}" '
        'font-family="DejaVu Sans Mono, Menlo, Consolas, monospace" font-size="12">',
        "<title>The crates, each above those that it stands on; those of the program are green</title>",
        f'<rect width="{width:g}" height="{height:g}" fill="#ffffff"/>',
    ]
    for crate, others in stands_on.items():
        for other in others:
            stroke = "#1b7837" if {crate, other} <= in_program else "#999999"
            ends = f'x1="{x[crate]:g}" y1="{y[crate] + HEIGHT:g}" x2="{x[other]:g}" y2="{y[other]:g}"'
            lines.append(f'<line {ends} stroke="{stroke}"/>')
    for crate in stands_on:
        fill = "#d9f0d3" if crate in in_program else "#f2f2f2"
        corner = f'x="{x[crate] - WIDTH / 2:g}" y="{y[crate]:g}" width="{WIDTH}" height="{HEIGHT}"'
        lines.append(f'<rect {corner} rx="4" fill="{fill}" stroke="#666666"/>')
        lines.append(f'<text x="{x[crate]:g}" y="{y[crate] + 18:g}" text-anchor="middle">{crate}</text>')
    return "\n".join(lines + ["</svg>", ""])


with open(os.path.join(HERE, "crates.svg"), "w", encoding="utf-8") as out:
    out.write(drawn())
