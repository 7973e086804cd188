"""Numbers in text: whole numbers, and quantities with a point and an exponent."""
import re
from fractions import Fraction

LONGEST_NUMBER = 32
GREATEST_WHOLE = 2**64 - 1

QUANTITY = re.compile(rb'([0-9]*)(?:\.([0-9]*))?(?:[eE]([+-]?[0-9]+))?')


def whole(text: bytes) -> int | None:
    """The whole number that a text writes: 1 to 32 ASCII digits and nothing else, with a value below 2^64."""
    if not re.fullmatch(rb'[0-9]{1,%d}' % LONGEST_NUMBER, text):
        return None
    value = int(text)
    return value if value <= GREATEST_WHOLE else None


def quantity(text: bytes) -> Fraction | None:
    """The exact value of a text that is a quantity of at most 32 bytes and at most 1000; the empty text is 0."""
    if text == b'':
        return Fraction(0)
    parts = QUANTITY.fullmatch(text)
    if len(text) > LONGEST_NUMBER or not parts:
        return None
    digits = parts[1] + (parts[2] or b'')
    if digits == b'':
        return None
    value = scaled(int(digits), int(parts[3] or b'0') - len(parts[2] or b''))
    return value if value <= 1000 else None


def scaled(mantissa: int, power: int) -> Fraction:
    """A mantissa of at most 32 digits times ten to a power. Where the power is so great or so small that only the
    side of the bounds matters, another of that side stands for it, so that no huge number is made."""
    if mantissa == 0:
        return Fraction(0)
    return mantissa * Fraction(10) ** max(-80, min(power, 40))


def units_down(text: bytes) -> int | None:
    """The units of 10^-9 of a quantity, rounded down, as for what a machine has."""
    value = quantity(text)
    return None if value is None else value.numerator * 10**9 // value.denominator


def units_up(text: bytes) -> int | None:
    """The units of 10^-9 of a quantity, rounded up, as for what a task asks."""
    value = quantity(text)
    return None if value is None else -(-value.numerator * 10**9 // value.denominator)
