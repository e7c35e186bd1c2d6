"""The ratios of instructions as a bar chart: one bar for each case and size, from the line of 1 to the ratio."""
import math

LEFT, RIGHT, TOP, STEP = 330, 620, 56, 17
# The least and the greatest ratio that the scale shows, as powers of ten.
LEAST, GREATEST = -3, 1


def place(ratio):
    power = min(max(math.log10(ratio), LEAST), GREATEST)
    return LEFT + RIGHT * (power - LEAST) / (GREATEST - LEAST)


def text(x, y, words, anchor="start", size=12):
    return f'<text x="{x:.1f}" y="{y:.1f}" text-anchor="{anchor}" font-size="{size}">{words}</text>'


def bar(y, row):
    ratio = row.ratio()
    start, end = sorted((place(1), place(ratio)))
    color = "#3b7dd8" if ratio <= 1 else "#d8703b"
    label = f"{ratio:.3f}" if ratio < 0.1 else f"{ratio:.2f}"
    # The figure stands at the outer end of the bar.
    at, anchor = (start - 4, "end") if ratio <= 1 else (end + 4, "start")
    return [
        text(LEFT - 44, y + 11, f"{row.case}, {row.size:,}", "end"),
        f'<rect x="{start:.1f}" y="{y + 2:.1f}" width="{max(end - start, 1):.1f}" height="{STEP - 5}" fill="{color}"/>',
        text(at, y + 12, label, anchor, 11),
    ]


def chart(rows):
    shown = [row for row in rows if row.ratio()]
    bottom = TOP + STEP * len(shown)
    width, height = LEFT + RIGHT + 60, bottom + 24
    parts = [
        f'<svg xmlns="http://www.w3.org/2000/svg" width="{width}" height="{height}" font-family="sans-serif">',
        f'<rect width="{width}" height="{height}" fill="white"/>',
        text(12, 20, "Instructions of one call, ours / trust-dns 0.22 (callgrind; left of 1 ours needs fewer)", size=14),
    ]
    for power in range(LEAST, GREATEST + 1):
        x = place(10**power)
        color = "#444" if power == 0 else "#ddd"
        parts.append(f'<line x1="{x:.1f}" y1="{TOP - 6}" x2="{x:.1f}" y2="{bottom}" stroke="{color}"/>')
        parts.append(text(x, TOP - 12, f"{10**power:g}", "middle"))
    for i, row in enumerate(shown):
        parts += bar(TOP + STEP * i, row)
    parts.append("</svg>")
    return "\n".join(parts) + "\n"
