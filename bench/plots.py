"""A small line plot as SVG, by hand: lines with dots over ring sizes, an axis from 0 or in powers of ten."""

import math

WIDTH, HEIGHT = 640, 340
LEFT, RIGHT, TOP, BOTTOM = 60, 190, 40, 50
COLOURS = ("#0b6e99", "#c4511d", "#4d7c2a", "#7a4b9a", "#b08900")


def ticks(most):
    """About five round steps from 0 to most or a little above."""
    step = 10 ** math.floor(math.log10(most))
    step = next(step * part for part in (0.1, 0.2, 0.5, 1, 2) if most / (step * part) <= 6)
    return [round(step * k, 10) for k in range(math.ceil(most / step) + 1)]


def powers(least, most):
    return [10**k for k in range(math.floor(math.log10(least)), math.ceil(math.log10(most)) + 1)]


def place(value, low, high, start, end):
    return round(start + (value - low) / (high - low) * (end - start), 1)


def words(x, y, text, anchor="middle", size=12):
    return f'<text x="{x}" y="{y}" text-anchor="{anchor}" font-size="{size}">{text}</text>'


def line(x1, y1, x2, y2, colour):
    return f'<line x1="{x1}" y1="{y1}" x2="{x2}" y2="{y2}" stroke="{colour}"/>'


def chart(path, title, unit, series, log=False):
    """Draws series, which are pairs of a name and a list of points (offices, value)."""
    sizes = sorted({x for _, points in series for x, _ in points})
    values = [y for _, points in series for _, y in points]
    marks = powers(min(values), max(values)) if log else ticks(max(values))
    scale = math.log10 if log else float

    def at_x(x):
        return place(x, sizes[0], sizes[-1], LEFT + 15, WIDTH - RIGHT - 15)

    def at_y(y):
        return place(scale(y), scale(marks[0]), scale(marks[-1]), HEIGHT - BOTTOM, TOP)

    out = [
        f'<svg xmlns="http://www.w3.org/2000/svg" viewBox="0 0 {WIDTH} {HEIGHT}" width="{WIDTH}" height="{HEIGHT}" font-family="sans-serif">',
        f'<rect width="{WIDTH}" height="{HEIGHT}" fill="white"/>',
        words(LEFT, 22, f"{title}, {unit}", "start", 14),
        words((LEFT + WIDTH - RIGHT) / 2, HEIGHT - 12, "offices on the ring"),
    ]
    for mark in marks:
        out += [line(LEFT, at_y(mark), WIDTH - RIGHT, at_y(mark), "#dddddd"), words(LEFT - 8, at_y(mark) + 4, f"{mark:g}", "end")]
    out += [words(at_x(x), HEIGHT - BOTTOM + 18, x) for x in sizes]
    for k, (name, points) in enumerate(series):
        colour, spots = COLOURS[k], [(at_x(x), at_y(y)) for x, y in points]
        out.append(f'<polyline fill="none" stroke="{colour}" stroke-width="2" points="{" ".join(f"{x},{y}" for x, y in spots)}"/>')
        out += [f'<circle cx="{x}" cy="{y}" r="3" fill="{colour}"/>' for x, y in spots]
        row = TOP + 10 + 22 * k
        out += [line(WIDTH - RIGHT + 12, row - 4, WIDTH - RIGHT + 32, row - 4, colour), words(WIDTH - RIGHT + 38, row, name, "start")]
    path.write_text("\n".join([*out, "</svg>"]) + "\n")
