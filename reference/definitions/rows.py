"""The records of a table's bytes: fields parted by commas, quoted with double quotes where that is wanted, no line for
the names of columns, and no two records need have the same number of fields."""
import re

Record = list[bytes]

MARK_OF_BYTE_ORDER = b'\xef\xbb\xbf'
LINE_ENDS = re.compile(rb'[\r\n]*')
UNQUOTED = re.compile(rb'[^,\r\n]*')
QUOTE, COMMA = 0x22, 0x2C


def records_of(data: bytes) -> list[Record]:
    """The records of a table. A byte order mark in front is dropped, and a line without a byte is no record."""
    return Records(data.removeprefix(MARK_OF_BYTE_ORDER)).all()


class Records:
    """The bytes of a table, read once from the front."""

    def __init__(self, data: bytes) -> None:
        self.data = data
        self.at = 0

    def all(self) -> list[Record]:
        out = []
        while self.skip_line_ends():
            out.append(self.record())
        return out

    def skip_line_ends(self) -> bool:
        """Whether anything stands behind the ends of lines that stand here."""
        self.at = LINE_ENDS.match(self.data, self.at).end()
        return self.at < len(self.data)

    def record(self) -> Record:
        """The record that begins here, up to and with the byte that ends it."""
        fields = [self.field()]
        while self.at < len(self.data) and self.data[self.at] == COMMA:
            self.at += 1
            fields.append(self.field())
        self.at += 1
        return fields

    def field(self) -> bytes:
        """The field that begins here, up to the comma or the end of the line behind it. Quotes have their meaning at
        its beginning alone; what stands behind the closing quote belongs to the field."""
        out = bytearray()
        if self.at < len(self.data) and self.data[self.at] == QUOTE:
            self.at += 1
            self.quoted(out)
        rest = UNQUOTED.match(self.data, self.at)
        self.at = rest.end()
        return bytes(out + rest[0])

    def quoted(self, out: bytearray) -> None:
        """Takes what stands up to the closing quote, or to the table's end; two quotes stand for one."""
        while self.at < len(self.data):
            byte = self.data[self.at]
            self.at += 1
            if byte == QUOTE:
                if self.at == len(self.data) or self.data[self.at] != QUOTE:
                    return
                self.at += 1
            out.append(byte)
