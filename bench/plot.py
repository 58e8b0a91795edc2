"""plot.py FIGURES OUT.svg: the ratios ours / crate of bench/run as bars, instructions and time, on a logarithmic axis; prints them as a table.
Standard library alone."""
import math
import sys

LEFT, RIGHT, ROW, TOP = 190, 70, 20, 56
WIDTH = 520
LOW, HIGH = 0.25, 128.0
INK, FAST, SLOW, TIME = "#222222", "#2f7d4f", "#b5482f", "#9aa5b1"


def figures(path):
    for line in open(path):
        row = dict(word.split("=", 1) for word in line.split() if "=" in word)
        if "ours_instructions" in row:
            count = int(row["ours_instructions"]) / int(row["crate_instructions"])
            yield row["shape"], count, int(row["ours_ns"]) / int(row["crate_ns"])


def place(ratio):
    ratio = min(max(ratio, LOW), HIGH)
    return LEFT + WIDTH * math.log(ratio / LOW) / math.log(HIGH / LOW)


def bar(y, height, ratio, colour):
    a, b = sorted((place(1.0), place(ratio)))
    return f'<rect x="{a:.1f}" y="{y}" width="{max(b - a, 1):.1f}" height="{height}" fill="{colour}"/>'


def plot(rows):
    high = TOP + ROW * len(rows) + 30
    out = [f'<svg xmlns="http://www.w3.org/2000/svg" width="{LEFT + WIDTH + RIGHT}" height="{high}" font-family="sans-serif" font-size="11" fill="{INK}">']
    out.append('<rect width="100%" height="100%" fill="white"/>')
    out.append('<text x="12" y="20" font-size="14">One call: ours against the crate (left of 1 is faster)</text>')
    out.append('<text x="12" y="36">bar: instructions; thin grey: time</text>')
    ratio = LOW
    while ratio <= HIGH:
        x = place(ratio)
        out.append(f'<line x1="{x:.1f}" y1="{TOP - 6}" x2="{x:.1f}" y2="{high - 24}" stroke="{INK}" stroke-width="{1.2 if ratio == 1 else 0.2}"/>')
        out.append(f'<text x="{x:.1f}" y="{high - 10}" text-anchor="middle">{ratio:g}</text>')
        ratio *= 2
    for i, (name, count, time) in enumerate(rows):
        y = TOP + ROW * i
        out.append(f'<text x="{LEFT - 8}" y="{y + 11}" text-anchor="end">{name}</text>')
        out.append(bar(y + 2, 9, count, FAST if count <= 1 else SLOW))
        out.append(bar(y + 12, 3, time, TIME))
        out.append(f'<text x="{LEFT + WIDTH + 8}" y="{y + 11}">{count:.2f}</text>')
    out.append("</svg>\n")
    return "\n".join(out)


def table(rows):
    yield "| shape | instructions | time |"
    yield "|---|---|---|"
    for name, count, time in rows:
        yield f"| {name} | {count:.2f} | {time:.2f} |"


if __name__ == "__main__":
    source, target = sys.argv[1:]
    rows = list(figures(source))
    with open(target, "w") as f:
        f.write(plot(rows))
    print("\n".join(table(rows)))
