"""Convolutions as sheets with what they print (RULES 5.14).

    python3 -B convolution_cases.py FOLDER

writes FOLDER/conv-*.sheet and FOLDER/conv-*.out. Everything is worked in exact fractions, from the rules alone: the picture
is extended as far as the kernel reaches, line by line, the kernel is turned half round, and what lies under it is summed.
"""

import sys
from fractions import Fraction
from itertools import cycle, islice
from math import floor
from pathlib import Path

from curve_cases import premultiplied, reaches_linear, reaches_srgb, space_maps, straight, through, value

CLEAR = (0, 0, 0, 0)


def extended(line, before, after, edge, blank):
    """A list with `before` places more in front of it and `after` behind it."""
    if edge == "duplicate":
        return [line[0]] * before + line + [line[-1]] * after
    if edge == "none":
        return [blank] * before + line + [blank] * after
    # Round and round: the places in front are the last of the line said backwards, again and again.
    front = list(islice(cycle(line[::-1]), before))[::-1]
    return front + line + list(islice(cycle(line), after))


def turned(kernel):
    return [row[::-1] for row in kernel[::-1]]


def byte(exact):
    """To the nearest, halves up, limited."""
    return max(0, min(255, floor(exact + Fraction(1, 2))))


class Step:
    """The fields of a convolution after its input: "_" is an absent divisor."""

    def __init__(self, text):
        fields = text.split()
        self.columns, self.rows = int(fields[0]), int(fields[1])
        count = self.columns * self.rows
        values = [value(field) for field in fields[2 : 2 + count]]
        self.kernel = [values[i : i + self.columns] for i in range(0, count, self.columns)]
        divisor, bias, across, down, preserve, self.edge = fields[2 + count :]
        self.divisor = value(divisor) if divisor != "_" else sum(values) or Fraction(1)
        self.bias, self.target = value(bias), (int(across), int(down))
        self.preserve = preserve == "true"
        self.fields = text.replace("_", "").replace(" ", "\t")

    def drawn(self, picture):
        """The picture that it makes, a list of rows."""
        (column, row), width = self.target, len(picture[0])
        if self.preserve:
            channels = [[tuple(straight(c, p[3]) for c in p[:3]) + (p[3],) for p in line] for line in picture]
        else:
            channels = picture
        wide = [extended(line, column, self.columns - 1 - column, self.edge, CLEAR) for line in channels]
        blank = [CLEAR] * (width + self.columns - 1)
        tall = extended(wide, row, self.rows - 1 - row, self.edge, blank)
        kernel = turned(self.kernel)

        def pixel(x, y):
            own = picture[y][x][3]
            under = [(k, tall[y + i][x + j]) for i, line in enumerate(kernel) for j, k in enumerate(line)]
            new = [byte(sum(k * p[c] for k, p in under) / self.divisor + self.bias * own) for c in range(4)]
            if self.preserve:
                return tuple(premultiplied(c, own) for c in new[:3]) + (own,)
            return tuple(min(c, new[3]) for c in new[:3]) + (new[3],)

        return [[pixel(x, y) for x in range(width)] for y in range(len(picture))]


def made(width, height, pixel):
    return [[pixel(y * width + x) for x in range(width)] for y in range(height)]


def mixed(i):
    """A pixel of any alpha, colours at three heights below it."""
    alpha = (i * i * 7 + 91 * i + 40) % 256
    return (alpha * (i % 5) // 4, alpha * (i * 3 % 7) // 6, (i * 29) % (alpha + 1), alpha)


def opaque(i):
    return ((i * 83 + 20) % 256, (i * i * 5) % 256, (i * 131) % 256, 255)


def alphas(i):
    return (i, i // 2, i // 3, i)


EXAMPLE = [0, 20, 40, 235, 235, 100, 120, 140, 235, 235, 200, 220, 240, 235, 235, 225, 225, 255, 255, 255, 225, 225, 255, 255, 255]

COUNTED = " ".join(map(str, range(1, 26)))
GAUSS = "1 4 6 4 1 4 16 24 16 4 6 24 36 24 6 4 16 24 16 4 1 4 6 4 1"
SHARPEN = "0 -1 0 -1 5 -1 0 -1 0"
EMBOSS = "-2 -1 0 -1 1 1 0 1 2"
ODD = "0.3333 -1.5 2.25 0.0001 4 -0.125 1.0627 0.5 -2"
ODD_BELOW = "-0.3333 1.5 -2.25 -0.0001 -4 0.125 -1.0627 -0.5 2"

# Name, width, height, pixels, fields; in both spaces.
SHEETS = [
    ("sharpen", 16, 16, mixed, f"3 3 {SHARPEN} _ 0 1 1 true duplicate"),
    ("sharpen-free", 16, 16, mixed, f"3 3 {SHARPEN} _ 0 1 1 false none"),
    ("emboss", 16, 16, opaque, f"3 3 {EMBOSS} _ 0 1 1 false duplicate"),
    ("emboss-bias", 16, 16, mixed, "3 3 -2 -1 0 -1 0 1 0 1 2 _ 0.5 1 1 false wrap"),
    ("emboss-kept", 16, 16, mixed, "3 3 -2 -1 0 -1 0 1 0 1 2 _ 0.5 1 1 true wrap"),
    ("gauss", 16, 16, opaque, f"5 5 {GAUSS} _ 0 2 2 true duplicate"),
    ("counted", 16, 16, mixed, f"5 5 {COUNTED} _ 0 1 3 false wrap"),
    ("odd", 16, 16, mixed, f"3 3 {ODD_BELOW} -6.6667 0.1999 2 0 false wrap"),
    ("odd-kept", 16, 16, mixed, f"3 3 {ODD} 3.3333 -0.2501 0 2 true none"),
    ("halves", 16, 16, alphas, "1 1 1 2 0 0 0 false none"),
    ("halves-below", 16, 16, alphas, "1 1 -1 -2 0 0 0 false none"),
    ("halves-bias", 16, 16, alphas, "1 1 -1 4 1 0 0 false none"),
    ("halves-kept", 16, 16, mixed, "2 1 1 1 4 0.25 0 0 true wrap"),
    ("limits", 16, 16, mixed, "5 5 " + " ".join(["256", "-256"] * 12 + ["256"]) + " 256 -0.5 4 4 false wrap"),
    ("limits-bias", 16, 16, mixed, "1 1 256 1 -255 0 0 false none"),
    ("fine", 16, 16, mixed, "3 2 0.0001 0.0001 0.0001 0.0001 0.0001 -0.0005 _ 0 1 1 false duplicate"),
    ("below", 16, 16, mixed, "2 2 -1 -2 -4 1 _ 0 1 0 false wrap"),
    ("nothing", 16, 16, mixed, "3 1 0 0 0 _ 0.75 1 0 false none"),
]
SHEETS += [("002-" + edge, 5, 5, lambda i: (EXAMPLE[i],) * 3 + (255,), f"3 3 1 2 3 4 5 6 7 8 9 _ 0 1 1 false {edge}") for edge in ("duplicate", "wrap", "none")]
SHEETS += [
    (f"target-{x}{y}-{edge}", 4, 3, mixed, f"3 2 1 2 4 8 16 32 _ 0 {x} {y} false {edge}")
    for x in range(3)
    for y in range(2)
    for edge in ("duplicate", "wrap", "none")
]
SHEETS += [
    (f"small-{width}x{height}-{edge}", width, height, mixed, f"5 5 {COUNTED} 100 0.125 {width % 5} {4 - height} false {edge}")
    for width, height in ((1, 1), (2, 1), (1, 3), (2, 2), (3, 4), (6, 2))
    for edge in ("duplicate", "wrap", "none")
]


def rows(picture):
    return "".join("row" + "".join("\t" + bytes(pixel).hex() for pixel in line) + "\n" for line in picture)


def sheet(width, height, pixel, text, space):
    """A sheet's text and its answer."""
    source, step = made(width, height, pixel), Step(text)
    through_all = lambda maps, picture: [[through(maps, p) for p in line] for line in picture]
    if space:
        result = step.drawn(source)
    else:
        result = through_all(space_maps(reaches_srgb), step.drawn(through_all(space_maps(reaches_linear), source)))
    line = f"conv\t0\t0\t{width}\t{height}\tsrc\t{step.fields}{space}\n"
    return f"canvas\t{width}\t{height}\n{line}{rows(source)}", "ok\n" + rows(result)


def checked_by_hand():
    """The values of RULES 11.2."""
    on = lambda alphas, text: [p[3] for p in Step(text).drawn([[(0, 0, 0, a) for a in alphas]])[0]]
    example = Step("3 3 1 2 3 4 5 6 7 8 9 _ 0 1 1 false none").drawn(made(5, 5, lambda i: (0, 0, 0, EXAMPLE[i])))
    assert example[1][1][3] == 77
    assert on((10, 20, 30, 40), "3 1 1 0 0 _ 0 1 0 false none") == [20, 30, 40, 0]
    assert on((10, 20, 30, 40), "3 1 1 0 0 _ 0 0 0 false wrap") == [30, 40, 10, 20]
    assert on((10, 20, 30, 40), "3 1 1 0 0 _ 0 0 0 false duplicate") == [30, 40, 40, 40]
    assert on((10, 20), "5 1 1 2 4 8 16 4 0 0 0 false wrap") == [103, 130]
    assert on((1, 3, 5, 255), "1 1 -1 -2 0 0 0 false none") == [1, 2, 3, 128]
    assert on((0, 100, 201), "3 1 0 0 0 _ 0.5 1 0 false none") == [0, 50, 101]


def main():
    if len(sys.argv) != 2:
        sys.exit(__doc__)
    folder = Path(sys.argv[1])
    folder.mkdir(parents=True, exist_ok=True)
    checked_by_hand()
    written = 0
    for name, width, height, pixel, text in SHEETS:
        both = (("", "\tsrgb"), ("-light", "")) if width == 16 else (("", "\tsrgb"),)
        for ending, space in both:
            given, answer = sheet(width, height, pixel, text, space)
            (folder / f"conv-{name}{ending}.sheet").write_text(given, encoding="ascii", newline="")
            (folder / f"conv-{name}{ending}.out").write_text(answer, encoding="ascii", newline="")
            written += 1
    print(f"{written} sheets")


if __name__ == "__main__":
    main()
