"""A random case: tables, words, and for `resume` and `audit` the lines that are kept before."""
import os
import random
from typing import NamedTuple

from definitions.tables import NEEDED, TABLES_IN_ORDER, Table

from .command_words import COMMANDS, draw_words
from .kept_histories import draw_kept
from .life_rows import LifeRows
from .scenes import SIZES, Scene
from .spoiling import spoil_a_row, spoil_tables
from .texts import table_bytes
from .trace_rows import Rows


class Case(NamedTuple):
    tables: dict[Table, bytes]
    words: list[str]
    kept: list[bytes] | None


def draw_tables(scene: Scene) -> dict[Table, bytes]:
    """The bytes of the tables; some have a bad row, and an empty one may be left out."""
    rng, is_of_lives = scene.rng, scene.theme == 'lives' or scene.rng.random() < 0.2
    rows = (LifeRows if is_of_lives else Rows)(scene).all()
    if rng.random() < 0.07:
        spoil_a_row(rng, rows)
    tables = {table: table_bytes(rng, rows[table]) for table in TABLES_IN_ORDER}
    for table in TABLES_IN_ORDER:
        if table not in NEEDED and not rows[table] and rng.random() < 0.7:
            del tables[table]
    if rng.random() < 0.01:
        del tables[rng.choice(NEEDED)]
    return tables


def draw_case(number: int, size: str = 'small', spoil: bool = False, commands: list[str] | None = None) -> Case:
    """The case of a number, of a size; with words of some commands alone, or with tables spoiled byte by byte."""
    commands = commands or list(COMMANDS)
    scene = Scene(random.Random(f'{number} {size} {spoil} {" ".join(commands)}'), SIZES[size])
    tables = draw_tables(scene)
    tables = spoil_tables(scene.rng, tables) if spoil else tables
    words = draw_words(scene, commands)
    keeps = any(word in ('resume', 'audit') for word in words)
    return Case(tables, words, draw_kept(scene, words, tables) if keeps else None)


def write_case(case: Case, folder: str) -> None:
    """Writes the tables of a case, its words, one a line, and its kept lines."""
    os.makedirs(folder, exist_ok=True)
    files = {table + '.csv': data for table, data in case.tables.items()}
    files['words'] = ''.join(word + '\n' for word in case.words).encode()
    if case.kept is not None:
        files['kept'] = b''.join(line + b'\n' for line in case.kept)
    for name, data in files.items():
        with open(os.path.join(folder, name), 'wb') as file:
            file.write(data)
