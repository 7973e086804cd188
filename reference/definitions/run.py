"""The program: from the words and a folder to what it writes and the status by which it ends."""
import os
import random
from typing import NamedTuple

from .any_order import in_any_order
from .free_clock import in_free_time
from .generated import made_reader
from .keep import DatabaseKeeper, Keeper, audit_lines, resume
from .refusals import Refusal
from .report import Line
from .report_forms import in_format
from .report_lines import report_lines
from .settings import Settings
from .time_report import time_lines
from .trace import Reader, folder_reader, read_trace
from .turns import in_turns
from .virtual_time import in_time
from .words import settings_of
from .workload import Workload


class Answer(NamedTuple):
    """What is written to standard output and to standard error, and the exit status."""
    out: bytes
    err: bytes
    status: int


def reader_of(settings: Settings, cwd: str) -> Reader:
    """The tables that a run reads: those of the folder of its words, or on `generate` those that it makes."""
    if settings.command == 'generate':
        return made_reader(settings)
    return folder_reader(os.path.join(cwd, settings.tables))


def lines_of_run(settings: Settings, read: Reader, keeper: Keeper, order: int | None = None) -> list[Line]:
    """The lines that a run prints. On `run` there may be many that are right: these are of the history in turns, or of
    another one, which a number chooses."""
    if settings.command == 'audit':
        return audit_lines(keeper)
    workload = Workload(settings, read_trace(read))
    if settings.command == 'simulate':
        world, times = in_free_time(workload) if settings.clock == 'free' else in_time(workload)
        return report_lines(world) + time_lines(world, times)
    if settings.command == 'run' and order is not None:
        return report_lines(in_any_order(workload, random.Random(order)))
    world = in_turns(workload)
    if settings.command == 'resume':
        resume(keeper, world.history.entries)
    return report_lines(world)


def answer(words: list[str], cwd: str = '.', order: int | None = None, keeper: Keeper | None = None) -> Answer:
    """What the program does with these words, run in this folder. Kept lines are in the database that the words name,
    unless a keeper is handed in."""
    try:
        settings = settings_of(words)
        keeper = keeper or DatabaseKeeper(settings.kept, cwd)
        lines = lines_of_run(settings, reader_of(settings, cwd), keeper, order)
        return Answer(in_format(settings.format, lines), b'', 0)
    except Refusal as refusal:
        return Answer(b'', refusal.line.encode() + b'\n', refusal.exit_status)
