"""The words of a run: a command and options, each with its value."""
import re
from pathlib import Path
from typing import Dict, List, NamedTuple, Optional, Sequence, Tuple

from .common import Refusal, duration, shown

# Those that end in a report of a run and keep nothing, so that a tool may call them.
COMMANDS = ('replay', 'run', 'simulate', 'generate')
# Those whose report may be read.
REPORTS = COMMANDS + ('resume',)

# Each option with its default. One without a default has that of another option.
OPTIONS: Dict[str, Optional[str]] = {
    'tables': '.', 'seed': '0', 'batch': '1', 'rule': 'fine', 'mode': 'incremental', 'preempt': 'none',
    'extra': 'relative', 'cap': '60', 'tries': '5', 'give-up': '1000', 'window': '300000000', 'format': 'text',
    'machines': '64', 'jobs': '500', 't-job': '100000', 't-task': '5000', 'service-t-job': None,
    'service-t-task': None, 'clock': 'rounds', 'times': 'no', 'ends': 'trace', 'kept': 'omega.db',
}


class Words(NamedTuple):
    command: str
    options: Dict[str, str]     # those that are given, without hyphens

    def value(self, option: str) -> str:
        """What an option says, be it given or not."""
        if option in self.options:
            return self.options[option]
        default = OPTIONS[option]
        return self.value(option.replace('service-', '')) if default is None else default

    def window(self) -> int:
        """How long a round is, in microseconds."""
        value = self.value('window')
        if not re.fullmatch('[0-9]{1,32}', value) or int(value) == 0:
            raise Refusal('%s is no length of a window' % shown(value))
        return int(value)

    def has_own_ends(self) -> bool:
        """Whether tasks run for as long as they ran in the trace."""
        return (self.command, self.value('clock'), self.value('ends')) == ('simulate', 'free', 'own')

    def plain(self) -> List[str]:
        """The words one by one, the command first, in the order of the pages."""
        return [self.command] + [part for option in OPTIONS if option in self.options
                                 for part in ('--' + option, self.options[option])]

    def shown(self) -> str:
        """The words in one line, with the folder of tables last, since it tells least."""
        options = sorted(self.options.items(), key=lambda pair: pair[0] == 'tables')
        return ' '.join([self.command] + ['--%s %s' % pair for pair in options])


def split_words(words: Sequence[str]) -> Tuple[List[str], Dict[str, str]]:
    """The words that are no options, and the options, each without its hyphens. Options may stand before the
    command or be joined by `=`, and behind two hyphens there are none. Values aren't looked at."""
    commands: List[str] = []
    options: Dict[str, str] = {}
    rest = list(words)
    while rest:
        word = rest.pop(0)
        if word == '--':
            return commands + rest, options
        if not word.startswith('--'):
            commands.append(word)
            continue
        name, joined, value = word[2:].partition('=')
        if name not in OPTIONS or name in options:
            raise Refusal('%s %s' % (shown(word), 'is there twice' if name in options else 'is no option of omega'))
        if not joined and not rest:
            raise Refusal('%s has no value' % shown(word))
        options[name] = value if joined else rest.pop(0)
    return commands, options


def words_of(words: Sequence[str], allowed: Sequence[str] = COMMANDS) -> Words:
    commands, options = split_words(words)
    if len(commands) != 1 or commands[0] not in allowed:
        raise Refusal('there has to be one command: %s or %s' % (', '.join(allowed[:-1]), allowed[-1]))
    return Words(commands[0], options)


def words_beside(report: Path) -> Optional[Words]:
    """The words of a run from the file `words` beside its report, a word a line, if there is one."""
    path = report.parent / 'words'
    try:
        words = words_of(path.read_text().splitlines(), REPORTS)
        words.window()
        return words
    except FileNotFoundError:
        return None
    except (UnicodeDecodeError, Refusal) as fault:
        raise Refusal('%s has no words of a run, and is to say how %s was made: %s' % (
            path, report.name, fault if isinstance(fault, Refusal) else 'it is no text')) from fault


class Told:
    """What is known of the run that made a report: by what the caller says, else by the file `words` beside it."""

    def __init__(self, report: str, window: Optional[str] = None, ends: Optional[str] = None,
                 tables: Optional[Path] = None) -> None:
        self.report, self.said_window, self.said_ends, self.said_tables = report, window, ends, tables
        if window is not None and duration(window) < 1:
            raise Refusal('a window is at least a microsecond')

    def words(self) -> Optional[Words]:
        return None if self.report == '-' else words_beside(Path(self.report))

    def window(self) -> int:
        """How long a round is, in microseconds. It is asked for where something depends on it."""
        if self.said_window is not None:
            return duration(self.said_window)
        words = self.words()
        if words is None:
            raise Refusal('how long a round of %s is has to be said by --window, as in --window 5m: it doesn\'t stand '
                          'in a report, and there is no file of words beside it' % (
                              'standard input' if self.report == '-' else self.report))
        return words.window()

    def has_own_ends(self) -> bool:
        """Whether tasks end by their own lives."""
        if self.said_ends is not None:
            return self.said_ends == 'own'
        words = self.words()
        return words is not None and words.has_own_ends()

    def tables(self) -> Optional[Path]:
        """The folder of the tables that the report is of, if it is known."""
        if self.said_tables is not None:
            return self.said_tables
        words = self.words()
        if words is None or words.command == 'generate':
            return None
        return Path(self.report).parent / words.value('tables')
