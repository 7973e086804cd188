"""A history that is kept outside the program, a line for each entry: where the lines are, `resume` and `audit`."""
import os
import sqlite3
from typing import Callable, TypeVar

from .entries import Entry, RoundBegins
from .kept_lines import entry_line, read_entry
from .legal import is_possible
from .refusals import bad_kept, keep_fault
from .report import FIRST_LINE, Line
from .report_lines import use_line
from .state import History

CREATE = 'CREATE TABLE IF NOT EXISTS kept (place INTEGER PRIMARY KEY, line BLOB NOT NULL) STRICT'
NAMED = "SELECT type FROM sqlite_master WHERE lower(name) = 'kept' AND type != 'trigger'"
LOAD = 'SELECT line FROM kept ORDER BY place'
APPEND = 'INSERT INTO kept (place, line) VALUES ((SELECT coalesce(max(place) + 1, 0) FROM kept), ?)'
T = TypeVar('T')


class MemoryKeeper:
    """Lines in memory."""

    def __init__(self, lines: list[bytes]) -> None:
        self.lines = list(lines)

    def load(self) -> list[bytes]:
        return list(self.lines)

    def append(self, lines: list[bytes]) -> None:
        self.lines += lines


def has_table(base: sqlite3.Connection) -> bool:
    """Whether a database has the table of lines. Whatever else has its name is refused."""
    kinds = [kind for kind, in base.execute(NAMED)]
    if not kinds:
        return False
    columns = {name.lower(): (kind.lower(), key) for _, name, kind, _, _, key in base.execute('PRAGMA table_info(kept)')}
    has_key_apart = any(origin == 'pk' for _, _, _, origin, _ in base.execute('PRAGMA index_list(kept)'))
    keys = [name for name, (_, key) in columns.items() if key]
    if kinds != ['table'] or keys != ['place'] or columns['place'][0] != 'integer' or has_key_apart or 'line' not in columns:
        raise keep_fault()
    return True


class DatabaseKeeper:
    """Lines in a table of an SQLite database, in the order of their places. One that isn't there has none, and so has a
    file of no bytes; a link that leads to nothing and a file of one byte are refused. Names that SQLite would take as
    something else than a file's are refused. Loading writes nothing. What is appended goes behind the lines that were
    loaded and appended so far, and where others stand there is refused."""

    def __init__(self, name: str, folder: str = '') -> None:
        self.is_file = name not in ('', ':memory:') and not name.startswith('file:')
        self.path = os.path.join(folder, name)
        self.known: int | None = None

    def load(self) -> list[bytes]:
        lines = self.loaded()
        self.known = len(lines)
        return lines

    def loaded(self) -> list[bytes]:
        if not os.path.lexists(self.path) or os.path.isfile(self.path) and os.path.getsize(self.path) == 0:
            return []
        if not os.path.exists(self.path) or os.path.getsize(self.path) == 1:
            raise keep_fault()
        lines = self.run(lambda base: [line for line, in base.execute(LOAD)] if has_table(base) else [])
        if not all(isinstance(line, bytes) for line in lines):
            raise keep_fault()
        return lines

    def append(self, lines: list[bytes]) -> None:
        self.run(lambda base: self.append_to(base, lines))
        if self.known is not None:
            self.known += len(lines)

    def append_to(self, base: sqlite3.Connection, lines: list[bytes]) -> None:
        base.execute('BEGIN IMMEDIATE')
        has_table(base)
        base.execute(CREATE)
        count, = base.execute('SELECT count(*) FROM kept').fetchone()
        if self.known not in (None, count):
            raise keep_fault()
        base.executemany(APPEND, [(line,) for line in lines])

    def run(self, command: Callable[[sqlite3.Connection], T]) -> T:
        """Runs a command as one transaction."""
        if not self.is_file:
            raise keep_fault()
        try:
            base = sqlite3.connect(self.path)
            try:
                with base:
                    return command(base)
            finally:
                base.close()
        except sqlite3.Error:
            raise keep_fault() from None


def make_database(path: str, statements: str) -> None:
    """Makes a database by statements of SQL."""
    base = sqlite3.connect(path)
    try:
        base.executescript(statements)
    finally:
        base.close()


Keeper = MemoryKeeper | DatabaseKeeper


def round_ends(entries: list[Entry]) -> list[int]:
    """How many entries there are at the end of each round, in order."""
    starts = [place for place, entry in enumerate(entries) if isinstance(entry, RoundBegins)]
    return starts[1:] + [len(entries)] if entries else []


def check_kept(kept: list[bytes], lines: list[bytes], ends: list[int]) -> None:
    """Kept lines must be the first lines of the run, up to the end of a round. The first that isn't its line is
    refused; where all are, but end within a round, the place behind the last one is named."""
    for place, line in enumerate(kept):
        if place >= len(lines) or line != lines[place]:
            raise bad_kept(place)
    if kept and len(kept) not in ends:
        raise bad_kept(len(kept))


def resume(keeper: Keeper, entries: list[Entry]) -> None:
    """Checks the kept lines against the run, and then appends the lines of the rounds that aren't kept, a round at a
    time."""
    lines, ends, kept = [entry_line(entry) for entry in entries], round_ends(entries), keeper.load()
    check_kept(kept, lines, ends)
    begin = len(kept)
    for end in ends:
        if end > begin:
            keeper.append(lines[begin:end])
            begin = end


def audited(lines: list[bytes]) -> History:
    """The history of these lines. The first that is no entry's line, or whose entry isn't possible after those before
    it, is refused."""
    history = History()
    for place, line in enumerate(lines):
        entry = read_entry(line)
        if entry is None or not is_possible(history, entry):
            raise bad_kept(place)
        history.add(entry)
    return history


def audit_lines(keeper: Keeper) -> list[Line]:
    """What `audit` prints of kept lines: how many entries the legal history has, and what is used after it."""
    history = audited(keeper.load())
    return [FIRST_LINE, ('legal', len(history)), use_line(history.cell)]
