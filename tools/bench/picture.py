"""Draws lines over points as SVG, for light and dark pages."""

from math import log2

WIDTH, HEIGHT, LEFT, RIGHT, TOP, BOTTOM = 720, 400, 56, 64, 76, 44

# The colour of each line, on light and on dark pages.
COLOURS = [("#c00000", "#ff7b72"), ("#8a4b00", "#e3a04f"), ("#0b5cad", "#79b8ff"), ("#18753c", "#6fdd8b"),
           ("#6f42c1", "#c8a6ff"), ("#4d5761", "#b1bac4"), ("#a0007a", "#ff8fd8"), ("#00757a", "#56d4dd")]


def style():
    """Colours for light pages, and for dark ones if the reader prefers them."""

    def rules(dark):
        ground, text, grid = ("#0d1117", "#e6edf3", "#3d444d") if dark else ("#fff", "#1f2328", "#d0d7de")
        lines = [f".ground {{ fill: {ground} }} text {{ fill: {text} }} .grid {{ stroke: {grid} }}"]
        lines += [f".c{at} {{ stroke: {pair[dark]} }} .d{at} {{ fill: {pair[dark]} }}" for at, pair in enumerate(COLOURS)]
        return " ".join(lines)

    return f"<style>{rules(False)} @media (prefers-color-scheme: dark) {{ {rules(True)} }}</style>"


def text(x, y, words, more=""):
    return f'<text x="{x:.1f}" y="{y:.1f}"{more}>{words}</text>'


def draw(path, title, lines, levels):
    """Draws lines, by their names, over the MiB of a table: points (x, y, label) over a grid at these levels."""
    points = [point for line in lines.values() for point in line]
    xs = sorted({x for x, _, _ in points})
    low, high = log2(levels[0]), max(log2(levels[-1]), *(log2(y) for _, y, _ in points))

    def place(x, y):
        return (LEFT + log2(x / xs[0]) / log2(xs[-1] / xs[0]) * (WIDTH - LEFT - RIGHT),
                HEIGHT - BOTTOM - (log2(y) - low) / (high - low) * (HEIGHT - BOTTOM - TOP))

    parts = [f'<svg xmlns="http://www.w3.org/2000/svg" viewBox="0 0 {WIDTH} {HEIGHT}" width="{WIDTH}" height="{HEIGHT}" '
             'font-family="sans-serif" font-size="13">', style(), f'<rect class="ground" width="{WIDTH}" height="{HEIGHT}"/>',
             text(LEFT, 20, title),
             text(WIDTH - RIGHT, HEIGHT - 8, "MiB of the table; both axes are logarithmic", ' text-anchor="end"')]
    for level in levels:
        _, y = place(points[0][0], level)
        parts.append(f'<line class="grid" x1="{LEFT}" x2="{WIDTH - RIGHT}" y1="{y:.1f}" y2="{y:.1f}"/>')
        parts.append(text(LEFT - 8, y + 4, f"{level:g}", ' text-anchor="end"'))
    for x in xs:
        parts.append(text(place(x, levels[0])[0], HEIGHT - BOTTOM + 18, f"{x:g}", ' text-anchor="middle"'))
    for at, (name, line) in enumerate(lines.items()):
        x, y = LEFT + 160 * (at % 4), 38 + 16 * (at // 4)
        parts.append(f'<rect class="d{at}" x="{x}" y="{y - 9}" width="10" height="10"/>' + text(x + 16, y, name))
        places, width = [place(x, y) for x, y, _ in line], 3 if at == 0 else 1.5
        joined = " ".join(f"{x:.1f},{y:.1f}" for x, y in places)
        parts.append(f'<polyline class="c{at}" points="{joined}" fill="none" stroke-width="{width}"/>')
        rises = (places[-1][1] < places[0][1]) == (places[-1][0] > places[0][0])
        for (x, y), (_, _, label) in zip(places, line):
            parts.append(f'<circle class="d{at}" cx="{x:.1f}" cy="{y:.1f}" r="{width}"/>')
            parts += [text(x + 6, y + (14 if rises else -6), label)] if label else []
    with open(path, "w", encoding="utf-8") as file:
        file.write("\n".join([*parts, "</svg>", ""]))
