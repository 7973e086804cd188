#!/usr/bin/env python3
"""Says what a reader of SQLite finds in the way of keeping a history in a file. Changes nothing.

    kept_file.py FILE

A line for each thing: that the file is damaged, that what it has as `kept` is no table of lines, or a line that is no
blob. Nothing where it finds nothing. A log that stands beside the file isn't read.
"""
import sqlite3
import sys
from pathlib import Path
from typing import Iterator, List

NAMED = "SELECT type FROM sqlite_master WHERE lower(name) = 'kept' AND type != 'trigger'"
TRIGGERS = "SELECT 1 FROM sqlite_master WHERE lower(tbl_name) = 'kept' AND type = 'trigger'"


def columns_in_the_way(base: sqlite3.Connection) -> Iterator[str]:
    """What is wrong with the columns of a table `kept`."""
    columns = {name.lower(): (kind, key) for _, name, kind, _, _, key in base.execute('PRAGMA table_info(kept)')}
    keys = [name for name, (_, key) in columns.items() if key]
    apart = any(origin == 'pk' for _, _, _, origin, _ in base.execute('PRAGMA index_list(kept)'))
    if keys != ['place'] or columns['place'][0].lower() != 'integer' or apart:
        yield 'its table kept has another key than an integer column place'
    if 'line' not in columns:
        yield 'its table kept has no column line'
    elif base.execute("SELECT 1 FROM kept WHERE typeof(line) != 'blob' LIMIT 1").fetchone():
        yield 'a line in its table kept is no blob'


def found_in(path: Path) -> Iterator[str]:
    """What is found, one thing after the other."""
    base = sqlite3.connect('%s?mode=ro&immutable=1' % path.absolute().as_uri(), uri=True)
    try:
        for answer, in base.execute('PRAGMA integrity_check(1)'):
            if answer != 'ok':
                yield 'it is damaged: %s' % answer.splitlines()[-1]
        kinds = [kind for kind, in base.execute(NAMED)]
        for kind in kinds:
            if kind != 'table':
                yield 'what it has as kept is no table: %s' % kind
        if kinds == ['table']:
            yield from columns_in_the_way(base)
        if base.execute(TRIGGERS).fetchone():
            yield 'a trigger stands on its table kept'
    except sqlite3.Error as error:
        yield 'it is damaged, or no database: %s' % error
    finally:
        base.close()


def main(words: List[str]) -> int:
    if words in (['--help'], ['-h']):
        print(__doc__, end='')
        return 0
    if len(words) != 1:
        print(__doc__, end='', file=sys.stderr)
        return 2
    for line in found_in(Path(words[0])):
        print(line)
    return 0


if __name__ == '__main__':
    sys.exit(main(sys.argv[1:]))
