"""The bytes of a report: as text, or as JSON."""
import json

from .numbers import GREATEST_WHOLE
from .report import Line


def line_text(line: Line) -> str:
    """The words of a line with one space between two of them."""
    return ' '.join(str(word) for word in line)


def text_of(lines: list[Line]) -> bytes:
    return ''.join(line_text(line) + '\n' for line in lines).encode()


def json_word(word: str | int) -> str | int:
    """A name is a string and a number a number; one above 2^64 - 1 is a string, since readers would round it."""
    return str(word) if isinstance(word, int) and word > GREATEST_WHOLE else word


def json_of(lines: list[Line]) -> bytes:
    """One array with an array of words for each line, without a blank, and a line feed."""
    items = [[json_word(word) for word in line] for line in lines]
    return (json.dumps(items, separators=(',', ':')) + '\n').encode()


def in_format(format: str, lines: list[Line]) -> bytes:
    return json_of(lines) if format == 'json' else text_of(lines)
