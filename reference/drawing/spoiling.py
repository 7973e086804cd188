"""Tables that are spoiled: rows with one bad field, and bytes that were flipped, dropped, doubled or put in."""
import random

from definitions.rows import MARK_OF_BYTE_ORDER
from definitions.tables import Table

BAD_FIELDS = (b'x', b'-1', b'+1', b'', b' 1', b'4', b'9', b'256', b'2147483648', b'10001', b'9223372036854775808',
              b'18446744073709551616', b'0' * 33, b'1.5', b'.', b'1e', b'1000.0000000001', b'1001', b'1e4', b'0.1 ',
              b'1e-400', b'0x1', b'1_0')
HOSTILE = BAD_FIELDS + (b'1e9', b'1e-9', b'.5', b'5.', b'1e+', b'1e400', b'0e99999999999999999999', b'2147483647',
                        b'18446744073709551615', b'9223372036854775807', b'0' * 31 + b'1', b'1000', b'999.9999999999',
                        b'NaN', b'inf', b'"1"', b'"1', b'1"', b'"a""b"', b'"a\nb"', b'\xff\xfe', b'\x00', b'\xc3\xa9',
                        b'1\r', b'\r', b'1,2', MARK_OF_BYTE_ORDER + b'1', b'255', b'3', b'8', b'10000')
BYTES = (b'"', b',', b'\n', b'\r', b'\x00', b'\xff', b' ', b'e', b'-', b'0')


def spoil_a_row(rng: random.Random, rows: dict[Table, list[list[bytes]]]) -> None:
    """Makes a row a bad one, which by chance may still be a good one."""
    tables = [table for table in rows if rows[table]]
    if not tables:
        return
    row = rng.choice(rows[rng.choice(tables)])
    kind = rng.randrange(6)
    if kind == 0:
        row.pop()
    elif kind == 1:
        row.append(b'')
    else:
        row[rng.randrange(len(row))] = rng.choice(BAD_FIELDS)


def spoiled_lines(rng: random.Random, data: bytes) -> bytes:
    """A line is left out, put twice, or has a hostile field."""
    lines = data.split(b'\n')
    place, kind = rng.randrange(len(lines)), rng.randrange(4)
    if kind == 0:
        del lines[place]
    elif kind == 1:
        lines.insert(place, rng.choice(lines))
    else:
        fields = lines[place].split(b',')
        fields[rng.randrange(len(fields))] = rng.choice(HOSTILE)
        lines[place] = b','.join(fields)
    return b'\n'.join(lines)


def spoiled(rng: random.Random, data: bytes) -> bytes:
    """The bytes of a table with one place spoiled."""
    if not data:
        return rng.choice(HOSTILE) + rng.choice([b'', b'\n', b'\r\n', b','])
    at, kind = rng.randrange(len(data)), rng.randrange(9)
    if kind == 0:
        return data[:at] + bytes([data[at] ^ (1 << rng.randrange(8))]) + data[at + 1:]
    if kind == 1:
        return data[:at] + data[at + 1:]
    if kind == 2:
        return data[:at] + rng.choice(BYTES) + data[at:]
    if kind == 3:
        return data[:at]
    if kind == 4:
        return MARK_OF_BYTE_ORDER + data
    return spoiled_lines(rng, data)


def spoil_tables(rng: random.Random, tables: dict[Table, bytes]) -> dict[Table, bytes]:
    """One to four places are spoiled, in any of the tables."""
    tables = dict(tables)
    for _ in range(rng.randint(1, 4) if tables else 0):
        table = rng.choice(sorted(tables))
        tables[table] = spoiled(rng, tables[table])
    return tables


def spoiled_line(rng: random.Random, line: bytes) -> bytes:
    """The bytes of a kept line with one place spoiled: any byte may come, also one that parts lines elsewhere."""
    at, kind = rng.randrange(len(line) + 1), rng.randrange(8)
    if kind == 0 and at < len(line):
        return line[:at] + bytes([line[at] ^ (1 << rng.randrange(8))]) + line[at + 1:]
    if kind == 1:
        return line[:at] + line[at + 1:]
    if kind == 2:
        return line[:at] + rng.choice(BYTES) + line[at:]
    if kind == 3:
        return line[:at]
    if kind == 4:
        return rng.choice([MARK_OF_BYTE_ORDER + line, b'"' + line, line + b'"', line + b'\r', line + b'\n', b' ' + line])
    words = line.split(b' ')
    place = rng.randrange(len(words))
    words[place] = rng.choice(HOSTILE + (words[place] + b'0', b'0' + words[place], words[place].upper()))
    return b' '.join(words)


def spoil_lines(rng: random.Random, lines: list[bytes]) -> list[bytes]:
    """One to three places are spoiled: in the bytes of a line, or a line is left out, put twice, moved or cut off."""
    lines = list(lines)
    for _ in range(rng.randint(1, 3)):
        place, kind = rng.randrange(len(lines) + 1), rng.randrange(12)
        if kind == 0:
            lines.insert(place, rng.choice(HOSTILE + tuple(lines)))
        elif kind == 1:
            del lines[place:]
        elif place == len(lines):
            continue
        elif kind == 2:
            del lines[place]
        elif kind == 3:
            lines.insert(rng.randrange(len(lines)), lines.pop(place))
        else:
            lines[place] = spoiled_line(rng, lines[place])
    return lines
