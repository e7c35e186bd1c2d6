"""Measures all cases and prints the table, which it also writes to table.txt; chart.svg shows the ratios.

    report.py                     the whole table
    report.py shares CASE SIZE    where the instructions of one case go: the functions of each side, by their share
"""
import os
import sys

import measurements
from chart import chart

HERE = os.path.dirname(os.path.abspath(__file__))
OUT = f"{HERE}/out"

HEAD = """\
Ours beside trust-dns 0.22 (peer) and ldns, all built and measured on one machine in one run.
Instructions of one call, counted by callgrind; nanoseconds of processor time of one call, the least of seven; how often
one call asks for memory (malloc, calloc, realloc); and what it came to: bytes written, records or entries read, 1 for
found, allowed or blocked, 0 for not.
A ratio is ours / peer: below 1 ours needs less. '-': the side has no such call.
"""


def whole(number):
    return "-" if number is None else f"{number:,.0f}"


def ratio(ours, peer):
    return "-" if ours is None or not peer else f"{ours / peer:.2f}"


class Row:
    """What was measured of one case at one size."""

    def __init__(self, case, size, instructions, times, allocations):
        def of(figures, side):
            return figures.get((case, size, side))

        self.case, self.size = case, size
        self.answers = {s: found[0] for s in measurements.SIDES if (found := of(instructions, s))}
        self.instructions = {s: found[1] for s in measurements.SIDES if (found := of(instructions, s))}
        self.times = {s: of(times, s) for s in self.instructions}
        self.allocations = {s: of(allocations, s) for s in self.instructions}

    def ratio(self):
        ours, peer = self.instructions.get("ours"), self.instructions.get("peer")
        return ours / peer if ours and peer else None

    def cells(self):
        instructions, times = self.instructions, self.times
        both = [("ours", "peer"), ("ours", "peer", "ldns")]
        return [
            f"{self.size:,}",
            *(whole(instructions.get(side)) for side in both[1]),
            ratio(instructions.get("ours"), instructions.get("peer")),
            *(whole(times.get(side)) for side in both[1]),
            ratio(times.get("ours"), times.get("peer")),
            *(whole(self.allocations.get(side)) for side in both[0]),
            *(whole(self.answers.get(side)) for side in both[0]),
        ]


def load_line(loads):
    """How busy the machine was, which weakens times and leaves instructions as they are."""
    load, processors = max(loads), os.cpu_count()
    advice = ", so busy that the times are weak" if load > processors else ""
    return f"Load while the times were taken: up to {load:.1f} on {processors} processors{advice}.\n"


COLUMNS = ["size", "ours", "peer", "ldns", "ratio", "ours", "peer", "ldns", "ratio", "ours", "peer", "ours", "peer"]
GROUPS = [("", 1), ("instructions", 4), ("nanoseconds", 4), ("allocations", 2), ("came to", 2)]


def growth(rows):
    """How the two greatest sizes of a case compare, in instructions."""
    if len(rows) < 2:
        return ""
    low, high = rows[-2], rows[-1]
    parts = []
    for side in measurements.SIDES:
        if side in low.instructions and side in high.instructions:
            parts.append(f"{side} {high.instructions[side] / low.instructions[side]:.1f}")
    times = high.size / low.size
    return f"  from {low.size:,} to {high.size:,} (times {times:.0f}): " + ", ".join(parts)


def table(rows, loads):
    cells = [COLUMNS] + [row.cells() for row in rows]
    widths = [max(len(line[i]) for line in cells) for i in range(len(COLUMNS))]

    def line_of(line):
        return "  ".join(text.rjust(width) for text, width in zip(line, widths))

    titles, at = [], 0
    for title, count in GROUPS:
        titles.append(title.center(sum(widths[at : at + count]) + 2 * (count - 1)))
        at += count
    lines = [HEAD + load_line(loads), "  ".join(titles).rstrip(), line_of(COLUMNS)]
    for case in dict.fromkeys(row.case for row in rows):
        of_case = [row for row in rows if row.case == case]
        lines += ["", case + growth(of_case)] + [line_of(row.cells()) for row in of_case]
    return "\n".join(lines) + "\n"


def measured_rows():
    instructions = measurements.instructions(f"{OUT}/bench", OUT)
    allocations = measurements.figures(f"{OUT}/bench-allocations", "allocations")
    before = os.getloadavg()[0]
    times = measurements.figures(f"{OUT}/bench", "times")
    loads = before, os.getloadavg()[0]
    places = dict.fromkeys((case, size) for case, size, _ in instructions)
    return [Row(case, size, instructions, times, allocations) for case, size in places], loads


def print_shares(case, size):
    found = measurements.instructions(f"{OUT}/bench", OUT, case)
    for side in measurements.SIDES:
        if (case, size, side) not in found:
            continue
        _, total, functions = found[case, size, side]
        print(f"{case}, {size:,}, {side}: {total:,.0f} instructions")
        for name, cost in sorted(functions.items(), key=lambda item: -item[1])[:15]:
            print(f"  {100 * cost / total:5.1f} %  {cost:12,.0f}  {name}")


def main(words):
    if len(words) == 3 and words[0] == "shares":
        print_shares(words[1], int(words[2].replace(",", "")))
    elif not words:
        rows, loads = measured_rows()
        text = table(rows, loads)
        with open(f"{HERE}/table.txt", "w", encoding="utf-8") as file:
            file.write(text)
        with open(f"{HERE}/chart.svg", "w", encoding="utf-8") as file:
            file.write(chart(rows))
        print(text, end="")
    else:
        sys.exit(__doc__)


main(sys.argv[1:])
