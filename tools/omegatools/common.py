"""What the tools have in common: refusals, times in words, how a tool ends, and how many processors there are."""
import contextlib
import os
import re
import signal
import sys
import threading
from pathlib import Path
from typing import Callable, Iterator, List, Optional

MICROSECONDS = {'us': 1, 'ms': 1000, 's': 1_000_000, 'm': 60_000_000, 'h': 3_600_000_000, 'd': 86_400_000_000}
GREATEST_TIME = 2 ** 63 - 1

# What a tool ends with where a signal ends it: 128 and the signal's number.
INTERRUPTED, CLOSED, TERMINATED = 130, 141, 143


class Refusal(Exception):
    """What is wrong, in one line for the one who called the tool."""


class Terminated(KeyboardInterrupt):
    """The tool was asked to end."""


def duration(words: str) -> int:
    """A time in microseconds: of digits alone, or of numbers with units, as in `90m` or `1d2h`."""
    if re.fullmatch('[0-9]{1,19}', words):
        time = int(words)
    elif re.fullmatch('([0-9]{1,19}(us|ms|s|m|h|d))+', words):
        time = sum(int(number) * MICROSECONDS[unit]
                   for number, unit in re.findall('([0-9]+)(us|ms|s|m|h|d)', words))
    else:
        raise Refusal("%s is no time: it is a number of microseconds, or numbers with units, as 90m or 1d2h"
                      % shown(words))
    if time > GREATEST_TIME:
        raise Refusal('%s is above the greatest time' % shown(words))
    return time


def shown(words: str, most: int = 60) -> str:
    """A word as a message shows it: quoted, on one line, and not too long."""
    quoted = repr(words)
    return quoted if len(quoted) <= most else quoted[:most] + "..'"


def processors() -> int:
    """How many processors this process may use."""
    try:
        return len(os.sched_getaffinity(0))
    except AttributeError:  # not on every system
        return os.cpu_count() or 1


def own_name() -> str:
    """What this tool was called as."""
    return Path(sys.argv[0]).name


class Asking:
    """Whether the tool was asked to end while something went on that isn't left in the middle."""
    is_held = False
    was_asked = False


def terminated(*_: object) -> None:
    if not Asking.is_held:
        raise Terminated
    Asking.was_asked = True


@contextlib.contextmanager
def to_its_end() -> Iterator[None]:
    """Has what is done here be done to its end, before the tool ends for being asked to."""
    Asking.is_held, Asking.was_asked = True, False
    try:
        yield
    finally:
        Asking.is_held = False
    if Asking.was_asked:
        raise Terminated


@contextlib.contextmanager
def ended_when_asked() -> Iterator[None]:
    """Has SIGTERM raise Terminated meanwhile, so that what was begun is cleared away."""
    if threading.current_thread() is not threading.main_thread():
        yield
        return
    before = signal.signal(signal.SIGTERM, terminated)
    try:
        yield
    finally:
        signal.signal(signal.SIGTERM, before)


def status_of(name: str, main: Callable[[Optional[List[str]]], int]) -> int:
    """Runs a tool and tells what is wrong, in one line on standard error."""
    try:
        status = main(None)
        sys.stdout.flush()
        return status
    except SystemExit:  # of argparse, which may have printed its help
        sys.stdout.flush()
        raise
    except Refusal as refusal:
        print('%s: %s' % (name, refusal), file=sys.stderr)
    except BrokenPipeError:
        raise
    except OSError as fault:
        what = fault.strerror or str(fault)
        print('%s: %s' % (name, '%s: %s' % (fault.filename, what) if fault.filename else what), file=sys.stderr)
    except Terminated:
        print('%s: terminated' % name, file=sys.stderr)
        return TERMINATED
    except KeyboardInterrupt:
        print('%s: interrupted' % name, file=sys.stderr)
        return INTERRUPTED
    return 1


def ends(name: str, main: Callable[[Optional[List[str]]], int]) -> int:
    """Runs a tool. A refusal is one line on standard error and status 1; so is a file that can't be read. Nothing is
    said where whoever reads the output has had enough."""
    try:
        with ended_when_asked():
            return status_of(name, main)
    except BrokenPipeError:
        nowhere = os.open(os.devnull, os.O_WRONLY)
        for output in (1, 2):
            os.dup2(nowhere, output)
        return CLOSED
