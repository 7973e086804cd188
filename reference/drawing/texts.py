"""How values are written in a table: a value has many texts, and a field may be quoted."""
import random

from definitions.need import GREATEST_QUANTITY
from definitions.numbers import LONGEST_NUMBER
from definitions.rows import MARK_OF_BYTE_ORDER

UNITS = 10**9


def number_text(rng: random.Random, number: int) -> str:
    """A whole number, now and then with zeros in front."""
    text = str(number)
    return text.rjust(rng.randint(len(text), LONGEST_NUMBER), '0') if rng.random() < 0.03 else text


def shifted(units: int, power: int) -> str:
    """The decimal text of units * 10^(power - 9), for a power of at most 9."""
    digits = str(units).rjust(10 - power, '0')
    before, behind = digits[:len(digits) - 9 + power], digits[len(digits) - 9 + power:].rstrip('0')
    return before + '.' + behind if behind else before


def quantity_forms(rng: random.Random, units: int) -> list[str]:
    """Texts of an amount above 0: plain, with a point at either end, with an exponent."""
    plain, power = shifted(units, 0), rng.randint(-3, 9)
    forms = [plain] * 6 + ['%d.%09d' % divmod(units, UNITS), '0' + plain, plain + '0' if '.' in plain else plain + '.0']
    if plain.startswith('0.'):
        forms += [plain[1:]] * 2
    if '.' not in plain:
        forms.append(plain + '.')
    forms += [f'{shifted(units, power)}{rng.choice("eE")}{-power}', f'{units}e-09', f'{plain}e+0']
    if rng.random() < 0.1 and units < GREATEST_QUANTITY:
        forms = ['%d.%09d1' % divmod(units, UNITS), f'{units}.5e-9']     # a part of a unit more
    return [form for form in forms if len(form) <= LONGEST_NUMBER]


def quantity_text(rng: random.Random, units: int) -> bytes:
    """A text of an amount, or of one a part of a unit above it."""
    nothing = ['', '0', '0.0', '0e99', '.0', '0.', '00']
    return rng.choice(quantity_forms(rng, units) if units else nothing).encode()


def quoted(rng: random.Random, field: bytes) -> bytes:
    """The field as it stands in a row: between quotes where it must be, and sometimes elsewhere."""
    must = any(byte in field for byte in b',\r\n') or field[:1] == b'"'
    if not must and rng.random() >= 0.05:
        return field
    return b'"' + field.replace(b'"', b'""') + b'"'


def table_bytes(rng: random.Random, rows: list[list[bytes]]) -> bytes:
    """The bytes of a table: ends of lines of any kind, perhaps a mark of byte order, empty lines, none at the end."""
    ends = rng.choice([[b'\n'], [b'\n'], [b'\r\n'], [b'\r'], [b'\n', b'\r\n', b'\r', b'\n\n']])
    out = MARK_OF_BYTE_ORDER if rng.random() < 0.06 else b''
    if rng.random() < 0.1:
        out += rng.choice([b'\n', b'\r\n\r\n', b'\r'])
    for place, row in enumerate(rows):
        out += b','.join(quoted(rng, field) for field in row)
        if place + 1 < len(rows) or rng.random() < 0.9:
            out += rng.choice(ends)
    return out
