"""Component transfer of all 256 bytes, as sheets of 16 by 16 pixels with what they print (RULES 5.13).

    python3 curve_cases.py FOLDER

writes FOLDER/curve-*.sheet and FOLDER/curve-*.out. In a sheet of colours pixel i is the opaque grey i, so that its three
colours show three maps at every byte; in a sheet of alphas its alpha is i, and its colours are at three heights below it.

Everything is worked in exact fractions, from the rules alone: 004's formulas for the maps, powers of whole numbers for the
tables of the working spaces (RULES 4.5).
"""

import sys
from fractions import Fraction
from math import floor
from pathlib import Path

UNIT = 65536


def units(field):
    """A decimal in units; none of those here lies halfway between two."""
    exact = Fraction(field) * UNIT
    assert (exact - floor(exact)) != Fraction(1, 2)
    return floor(exact + Fraction(1, 2))


def value(field):
    return Fraction(units(field), UNIT)


def part(c, n):
    """k with k/n <= C < (k + 1)/n, or None for C = 1."""
    return next((k for k in range(n) if Fraction(k, n) <= c < Fraction(k + 1, n)), None)


def remapped(words, c):
    """C' of the map that the words name, at C = c."""
    kind, *fields = words
    if kind == "identity":
        return c
    if kind == "linear":
        slope, intercept = map(value, fields)
        return slope * c + intercept
    v = [value(field) for field in fields[1:]]
    assert len(v) == int(fields[0])
    if kind == "discrete":
        k = part(c, len(v))
        return v[-1] if k is None else v[k]
    n = len(v) - 1
    k = part(c, n)
    return v[n] if k is None else v[k] + (c - Fraction(k, n)) * n * (v[k + 1] - v[k])


def byte(exact):
    """To the nearest, halves up, limited."""
    return max(0, min(255, floor(255 * exact + Fraction(1, 2))))


def channel_map(text):
    """What each byte becomes."""
    return [byte(remapped(text.split(), Fraction(c, 255))) for c in range(256)]


def premultiplied(u, a):
    return (u * a + 127) // 255


def straight(c, a):
    return (255 * c + a // 2) // a if a else 0


def through(maps, pixel):
    """A pixel through a map for each channel."""
    r, g, b, a = pixel
    alpha = maps[3][a]
    return tuple(premultiplied(m[straight(c, a)], alpha) for m, c in zip(maps, (r, g, b))) + (alpha,)


def reaches_linear(i, h):
    if i <= 10:
        return 1292 * h <= 200 * i
    return h**5 * 10761**12 <= (40 * i + 561) ** 12 * 510**5


def reaches_srgb(i, h):
    if i == 0:
        return 100 * h <= 2584 * i
    return (20 * h + 561) ** 12 * 255**5 <= i**5 * 10761**12


def space_maps(reaches):
    """The nearest byte to the curve at each byte; alpha stays."""
    near = lambda i, b: (b == 0 or reaches(i, 2 * b - 1)) and not reaches(i, 2 * b + 1)
    table = [next(b for b in range(256) if near(i, b)) for i in range(256)]
    return [table] * 3 + [list(range(256))]


GREYS = [(i, i, i, 255) for i in range(256)]
ALPHAS = [(i, i // 2, i // 3, i) for i in range(256)]

RISING = "16 0 0.01 0.03 0.07 0.12 0.18 0.25 0.33 0.5 0.5 0.62 0.75 0.8 0.9 0.97 1"
JAGGED = "16 1 0 0.5 0.25 0.75 0 1 0.5 0.0001 0.9999 0.3333 0.6667 0.0627 0.502 0.498 0.1"

# Sheet, source, the maps of R, G, B and A.
SHEETS = (
    ("table", GREYS, ("table 1 0.5", "table 2 0.25 0.75", f"table {JAGGED}", "identity")),
    ("table-rising", GREYS, ("table 3 0 1 0.5", "table 5 1 0.75 0.5 0.75 0", f"table {RISING}", "table 2 0 1")),
    ("discrete", GREYS, ("discrete 1 0.5", "discrete 2 0.25 0.75", f"discrete {JAGGED}", "identity")),
    ("discrete-rising", GREYS, ("discrete 3 0 1 0.5", "discrete 15 " + " ".join(f"{k / 14:.4f}" for k in range(15)), f"discrete {RISING}", "discrete 1 1")),
    ("linear", GREYS, ("linear 0.5 0", "linear -0.5 0.5", "linear 1.5 -0.25", "identity")),
    ("linear-limits", GREYS, ("linear 256 -128", "linear -256 256", "linear 1 256", "linear 0 1")),
    ("linear-near", GREYS, ("linear 256 -127.5", "linear -3.3333 1.6667", "linear 0.0039 0.498", "linear 1 0")),
    ("alpha-identity", ALPHAS, ("linear -1 1", "table 2 1 0", "discrete 4 0.9 0.6 0.3 0", "identity")),
    ("alpha-table", ALPHAS, ("identity", "identity", "table 2 1 0", f"table {JAGGED}")),
    ("alpha-discrete", ALPHAS, ("identity", "linear -1 1", "identity", f"discrete {JAGGED}")),
    ("alpha-linear", ALPHAS, ("identity", "discrete 2 1 0", "identity", "linear -2 1.5")),
)


def rows(pixels):
    lines = (pixels[i : i + 16] for i in range(0, 256, 16))
    return "".join("row" + "".join("\t" + bytes(pixel).hex() for pixel in line) + "\n" for line in lines)


def sheet(name, source, curves, space):
    """A sheet's text and its answer."""
    to_linear, to_srgb = space_maps(reaches_linear), space_maps(reaches_srgb)
    maps = [channel_map(curve) for curve in curves]
    result = source
    for each in [maps] if space else [to_linear, maps, to_srgb]:
        result = [through(each, pixel) for pixel in result]
    step = " ".join(("curve 0 0 16 16 src", *curves)) + space
    return f"canvas\t16\t16\n{step}\n".replace(" ", "\t") + rows(source), "ok\n" + rows(result)


def checked_by_hand():
    """The maps of RULES 11.2, and the ends of the limits."""
    at = lambda text, places: [channel_map(text)[c] for c in places]
    assert at("table 3 0 1 0.5", (0, 64, 128, 255)) == [0, 128, 255, 128]
    assert at("discrete 3 0 1 0.5", (84, 85, 170, 255)) == [0, 255, 128, 128]
    assert at("linear -0.5 0.5", (0, 1, 128, 255)) == [128, 127, 64, 0]
    assert channel_map("table 1 0.5") == [128] * 256
    assert at("linear -256 256", (0, 254, 255)) == [255, 255, 0]
    assert space_maps(reaches_linear)[0][128] == 55 and space_maps(reaches_srgb)[0][55] == 128


def main():
    if len(sys.argv) != 2:
        sys.exit(__doc__)
    folder = Path(sys.argv[1])
    folder.mkdir(parents=True, exist_ok=True)
    checked_by_hand()
    written = 0
    for name, source, curves in SHEETS:
        for ending, space in (("", " srgb"), ("-light", "")):
            text, answer = sheet(name, source, curves, space)
            (folder / f"curve-{name}{ending}.sheet").write_text(text, encoding="ascii", newline="")
            (folder / f"curve-{name}{ending}.out").write_text(answer, encoding="ascii", newline="")
            written += 1
    print(f"{written} sheets")


if __name__ == "__main__":
    main()
