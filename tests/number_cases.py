"""Numbers of a step at every edge, with the answers that the rules give them (RULES 3).

    python3 number_cases.py FOLDER

writes FOLDER/numbers.in and FOLDER/numbers.expected. An input line is 21 bytes: the range's digit, a space, d or s,
a space, 16 lower-case hex digits, a line feed. For d the digits are a decimal's ten-thousandths as a 64-bit two's
complement; for s they are a single's bits. The expected line repeats the input's 20 characters and adds the units
above and below zero, or the word refused and the refusal's number.

Everything is worked in exact fractions, from the rules alone.
"""

import random
import sys
from fractions import Fraction
from pathlib import Path

# The table of steps: where a range starts, where it ends, and whether a number must be whole.
RANGES = (
    (0, 1, False),  # opacity, saturate
    (0, 32, False),  # the standard deviation of a blur
    (0, 64, True),  # the radius of erode and dilate
    (-1024, 1024, True),  # offset
    (-256, 256, False),  # matrix, arithmetic
)

ONE = 10000  # a decimal's 1
UNIT = 65536
SIGN = 1 << 31
INFINITE = 0x7F800000


def single(bits):
    """The exact value of a single's bits, or None where it has none."""
    exponent, digits = bits >> 23 & 255, bits & 0x7FFFFF
    if exponent == 255:
        return None
    size = Fraction(digits) if exponent == 0 else Fraction(digits + (1 << 23)) * Fraction(2) ** (exponent - 1)
    return (-size if bits & SIGN else size) / Fraction(2) ** 149


def rounded(value):
    """To the nearest whole number; where two are as near, to the even one."""
    below = value.numerator // value.denominator
    rest = value - below
    if rest == Fraction(1, 2):
        return below if below % 2 == 0 else below + 1
    return below if rest < Fraction(1, 2) else below + 1


def answer(place, value):
    low, high, whole = RANGES[place]
    if value is None:
        return "refused 8"
    if low == 0 and value < 0:
        return "refused 9"
    if not low <= value <= high:
        return "refused 10"
    if whole and value.denominator != 1:
        return "refused 11"
    units = rounded(value * UNIT)
    return f"{max(units, 0)} {max(-units, 0)}"


def bits_of(value):
    """The single of a fraction that is one; no other is asked for."""
    size, exponent = abs(value) * Fraction(2) ** 149, 0
    while size >= 1 << 24:
        size, exponent = size / 2, exponent + 1
    assert size.denominator == 1
    digits = int(size)
    bits = digits if digits < 1 << 23 else (exponent + 1 << 23) + digits - (1 << 23)
    assert single(bits) == abs(value)
    return bits | SIGN if value < 0 else bits


def around(bits):
    """A single with its neighbours, on both sides of zero."""
    for near in (bits - 1, bits, bits + 1):
        if 0 <= near < SIGN:
            yield near
            yield near | SIGN


def edge_decimals(limit):
    whole = [0, 1, 2, 3, limit // 2, limit - 1, limit, limit + 1, 32, 33, 64, 65, 256, 257, 1024, 1025, 4096, 1 << 20]
    for w in whole:
        for near in (-5000, -1, 0, 1, 5000):
            yield w * ONE + near
            yield -(w * ONE + near)
    # A decimal is never halfway between two units, and comes as near to it as 1/1,250 of a unit.
    for start in (0, limit * ONE // 2, limit * ONE - 700):
        for z in range(start, start + 700):
            if z * UNIT % ONE in (ONE // 2 - 8, ONE // 2 + 8):
                yield z
                yield -z
    for end in range(3):
        yield (1 << 63) - 1 - end
        yield -(1 << 63) + end


def edge_singles(limit):
    # Zero and the smallest numbers, the smallest normal one, 1, the largest, the infinities, numbers that are none.
    for bits in (0, 1, 2, 0x7FFFFF, 0x800000, 0x3F800000, INFINITE, 0x7FC00000, 0x7FFFFFFE):
        yield from around(bits)
    for w in (1, 2, 3, 31, 32, 63, 64, 65, 255, 256, 1023, 1024, 1025, 2048, 4096, limit):
        yield from around(bits_of(Fraction(w)))
    for halves in (1, 3, 2 * limit - 1, 2 * limit + 1):
        yield from around(bits_of(Fraction(halves, 2)))
    # Quarters, halves and wholes of a unit, from the first ones to the last that a single can tell apart.
    for quarters in (1, 2, 3, 4, 5, 6, 7, 10, 14, 4 * UNIT - 2, 4 * UNIT + 2):
        yield from around(bits_of(Fraction(quarters, 4 * UNIT)))
    for units in (4095, 4096, 65534, 65535, 65536, 2097150, 2097151, 2097152, 4194302, 4194303, 8388606, 8388607):
        yield from around(bits_of(Fraction(2 * units + 1, 2 * UNIT)))


def ties(chance, limit):
    """Halfway between two units, an even and an odd one below, on both sides of zero. Above 128 no single lies there."""
    pairs = min(limit, 128) * UNIT // 2
    for _ in range(12):
        even = 2 * chance.randrange(pairs)
        for below in (even, even + 1):
            bits = bits_of(Fraction(2 * below + 1, 2 * UNIT))
            yield bits
            yield bits | SIGN


def every_exponent():
    for exponent in range(256):
        yield exponent << 23
        yield exponent << 23 | SIGN


def random_numbers(chance, limit):
    """Decimals and wholes within the limit, any decimals and any singles, and singles about as large as a range."""
    for _ in range(24):
        yield "d", chance.randint(-limit * ONE, limit * ONE)
        yield "d", chance.randint(-limit, limit) * ONE
        yield "d", chance.randint(-(1 << 63), (1 << 63) - 1)
        yield "s", chance.getrandbits(32)
        yield "s", chance.randint(100, 140) << 23 | chance.getrandbits(23) | chance.choice((0, SIGN))


def cases():
    chance = random.Random(65536)
    for place, (_, limit, _) in enumerate(RANGES):
        for z in edge_decimals(limit):
            yield place, "d", z
        for bits in (*edge_singles(limit), *ties(chance, limit)):
            yield place, "s", bits
        for kind, number in random_numbers(chance, limit):
            yield place, kind, number
    for turn, bits in enumerate(every_exponent()):
        yield turn % len(RANGES), "s", bits


def lines():
    """Input line and expected line of each case, no case twice."""
    written = {}
    for place, kind, number in cases():
        value = Fraction(number, ONE) if kind == "d" else single(number)
        question = f"{place} {kind} {number % (1 << 64):016x}"
        written[question] = f"{question} {answer(place, value)}"
    return written


def checked_by_hand(written):
    """The cases of RULES 11, and halves: 0.5 to 3.5 units and below zero, and the last halves before 1 and before 32."""
    assert written["1 d ffffffffffffffff"].endswith(" refused 9")
    assert written["1 s 0000000080000000"].endswith(" 0 0")
    assert written["1 d 000000000004e200"].endswith(" 2097152 0")
    assert written["1 s 0000000042000000"].endswith(" 2097152 0")
    assert written["1 s 0000000042000001"].endswith(" refused 10")
    assert written["1 s 000000007fc00000"].endswith(" refused 8")
    assert written["3 d 0000000000001388"].endswith(" refused 11")
    for bits, size in (("37000000", 0), ("37c00000", 2), ("38200000", 2), ("38600000", 4)):
        below = f"{int(bits, 16) | SIGN:08x}"
        assert written[f"4 s 00000000{bits}"].endswith(f" {size} 0")
        assert written[f"4 s 00000000{below}"].endswith(f" 0 {size}")
        assert written[f"1 s 00000000{below}"].endswith(" refused 9")
        assert written[f"2 s 00000000{bits}"].endswith(" refused 11")
    assert written["0 s 000000003f7ffe80"].endswith(" 65534 0")
    assert written["0 s 000000003f7fff80"].endswith(" 65536 0")
    assert written["1 s 0000000041fffff4"].endswith(" 2097150 0")
    assert written["1 s 0000000041fffffc"].endswith(" 2097152 0")


def main():
    if len(sys.argv) != 2:
        sys.exit(__doc__)
    folder = Path(sys.argv[1])
    folder.mkdir(parents=True, exist_ok=True)
    written = lines()
    checked_by_hand(written)
    (folder / "numbers.in").write_text("".join(f"{x}\n" for x in written), encoding="ascii", newline="")
    (folder / "numbers.expected").write_text("".join(f"{x}\n" for x in written.values()), encoding="ascii", newline="")
    print(f"{len(written)} numbers")


if __name__ == "__main__":
    main()
