"""Many runs: words with lists of values, and what of them is kept."""
import hashlib
import itertools
import re
import shlex
from pathlib import Path
from typing import Dict, Iterable, List, NamedTuple, Optional, Sequence

from .common import Refusal, shown
from .running import SETTLED, put, take_place
from .words import COMMANDS, OPTIONS, Words, split_words, words_of

TABLES = ('machine_events', 'machine_attributes', 'task_events', 'task_constraints', 'mapreduce_jobs',
          'machine_disk')
MOST_RUNS = 100_000


# From words to runs.

def values_of(text: str, what: str) -> List[str]:
    """The values of a list: `fine,coarse`, `1,2,4`, `1..5`, or `1,10..12`."""
    values: List[str] = []
    for part in text.split(','):
        match = re.fullmatch('([0-9]{1,20})[.][.]([0-9]{1,20})', part)
        if match:
            low, high = int(match.group(1)), int(match.group(2))
            if not low <= high < low + MOST_RUNS:
                raise Refusal('%s of %s is no list: it goes from the lesser number to the greater' % (shown(part), what))
            values += map(str, range(low, high + 1))
        else:
            values.append(part)
    if len(set(values)) < len(values):
        raise Refusal('%s has a value twice: %s' % (what, shown(text)))
    return values


def expanded(words: Sequence[str]) -> List[Words]:
    """All runs that words with lists stand for: the last option's values change fastest."""
    commands, options = split_words(words)
    if len(commands) != 1:
        raise Refusal('there has to be one command, or a list as replay,simulate; there %s' % (
            'are ' + ' and '.join(map(shown, commands)) if commands else 'is none'))
    lists = {option: values_of(text, '--' + option) for option, text in options.items()}
    count = 1
    for values in lists.values():
        count *= len(values)
    if count > MOST_RUNS:
        raise Refusal('these words are %d runs; at most %d go together' % (count, MOST_RUNS))
    runs = []
    for command in values_of(commands[0], 'the command'):
        if command not in COMMANDS:
            raise Refusal('%s is no command of %s' % (shown(command), ', '.join(COMMANDS)))
        runs += [Words(command, dict(zip(lists, values))) for values in itertools.product(*lists.values())]
    return runs


def with_tables(words: Words, caller: Path) -> Words:
    """The same words with the folder of tables as a whole path; where none is named it is the caller's."""
    if words.command == 'generate':
        return words
    folder = (caller / words.value('tables')).resolve()
    for table in ('machine_events', 'task_events'):
        if not (folder / (table + '.csv')).is_file():
            raise Refusal('%s has no %s.csv' % (folder, table))
    return Words(words.command, {**words.options, 'tables': str(folder)})


def name_of(words: Words) -> str:
    """A name for a file, made of the words; of the folder of tables only the last part."""
    parts = [words.command]
    for option in OPTIONS:
        if option in words.options:
            value = words.options[option]
            value = Path(value).name if option == 'tables' else value
            parts.append('%s=%s' % (option, re.sub('[^A-Za-z0-9._+-]', '_', value)))
    name = ','.join(parts)
    if len(name) > 200:
        name = name[:180] + '~' + hashlib.sha256(name.encode()).hexdigest()[:12]
    return name


class Run(NamedTuple):
    name: str
    words: Words
    inputs: List[str]       # which program and which tables, by their bytes; and what workload these are


def digest(paths: Iterable[Path]) -> str:
    """A short text that stands for the bytes of some files."""
    whole = hashlib.sha256()
    for path in paths:
        one = hashlib.sha256()
        with open(path, 'rb') as file:
            for block in iter(lambda: file.read(1 << 20), b''):
                one.update(block)
        whole.update(one.digest())
    return whole.hexdigest()[:16]


def workload_of(folder: Path) -> List[str]:
    """What the tables of a folder were made as: the line of the file `workload`, which is the same for all that differ
    in the seed of their generator alone."""
    try:
        lines = (folder / 'workload').read_text().splitlines()
    except FileNotFoundError:
        return []
    except UnicodeDecodeError:
        lines = []
    if len(lines) != 1 or not lines[0].strip():
        raise Refusal('%s is no line that names a workload' % (folder / 'workload'))
    return ['workload ' + lines[0].strip()]


class Inputs:
    """Tells which program and tables a run has. Each file is read once."""

    def __init__(self, program: Path) -> None:
        self.program = 'program ' + digest([program])
        self.tables: Dict[str, List[str]] = {}

    def of(self, words: Words) -> List[str]:
        if words.command == 'generate':
            return [self.program]
        folder = words.options['tables']
        if folder not in self.tables:
            files = [Path(folder) / (table + '.csv') for table in TABLES]
            there = [file for file in files if file.is_file()]
            self.tables[folder] = ['tables %s %s' % (digest(there), ' '.join(file.stem for file in there)),
                                   *workload_of(Path(folder))]
        return [self.program, *self.tables[folder]]


def runs_of(words: Sequence[str], program: Path, caller: Path) -> List[Run]:
    inputs = Inputs(program)
    runs: Dict[str, Run] = {}
    for each in expanded(words):
        whole = with_tables(each, caller)
        name = name_of(whole)
        if name in runs:
            raise Refusal('two runs would be called %s: their folders of tables need names of their own' % name)
        runs[name] = Run(name, whole, inputs.of(whole))
    return list(runs.values())


# What is kept.

def lines_of(path: Path) -> Optional[List[str]]:
    try:
        return path.read_text().splitlines()
    except FileNotFoundError:
        return None


class Kept(NamedTuple):
    """A run that is kept in a folder."""
    name: str
    words: Words
    status: int
    seconds: float
    report: Path
    inputs: List[str]

    def fault(self) -> str:
        said = lines_of(self.report.parent / 'fault.txt') or ['it said nothing']
        return 'status %d, %s' % (self.status, said[0])

    def tables(self) -> str:
        """Which tables it had, by their bytes."""
        return next((line for line in self.inputs if line.startswith('tables ')), '')

    def workload(self) -> Optional[str]:
        return next((line.split(' ', 1)[1] for line in self.inputs if line.startswith('workload ')), None)


def essence(words: Words, inputs: Sequence[str]) -> str:
    """What decides how a run ends: its words but for the folder of tables, and the bytes of program and tables."""
    plain = Words(words.command, {option: value for option, value in words.options.items() if option != 'tables'})
    return '\n'.join([*plain.plain(), *(line for line in inputs if not line.startswith('workload '))])


def kept_in(folder: Path, name: str) -> Optional[Kept]:
    """The run of this name, if it was run to its end."""
    place = folder / name
    words, status, seconds, inputs = (lines_of(place / file) for file in ('words', 'status', 'seconds', 'inputs'))
    if not words or not status or not seconds or not inputs:
        return None
    try:
        return Kept(name, words_of(words), int(status[0]), float(seconds[0]), place / 'report.txt', inputs)
    except ValueError as fault:
        raise Refusal('%s: its seconds or its status is no number' % place) from fault


def is_settled(kept: Optional[Kept], run: Run) -> bool:
    """Whether a kept run would end the same if it were run again, as this one."""
    return kept is not None and kept.status in SETTLED and essence(kept.words, kept.inputs) == essence(run.words, run.inputs)


def adopt(folder: Path, kept: Kept, run: Run) -> None:
    """Makes a kept run this one: its tables may lie elsewhere now, or be told of otherwise."""
    if (kept.words, kept.inputs) != (run.words, run.inputs):
        put(str(folder / kept.name), 'words', run.words.plain())
        put(str(folder / kept.name), 'inputs', run.inputs)
    if kept.name != run.name:
        take_place(str(folder / kept.name), str(folder / run.name))


def still_to_be_made(folder: Path, runs: Sequence[Run]) -> List[Run]:
    """Those of some runs that aren't kept. One whose tables were moved is found by their bytes."""
    own = {run.name for run in runs}
    others = {essence(kept.words, kept.inputs): kept for kept in all_kept(folder)
              if kept.status in SETTLED and kept.name not in own}
    todo = []
    for run in runs:
        kept = kept_in(folder, run.name)
        if not is_settled(kept, run):
            words = lines_of(folder / run.name / 'words')
            if words is not None and words_of(words) != run.words:
                raise Refusal('%s is there already, with other words' % (folder / run.name))
            kept = others.pop(essence(run.words, run.inputs), None)
        if kept is None:
            todo.append(run)
        else:
            adopt(folder, kept, run)
    return todo


def all_kept(folder: Path) -> List[Kept]:
    """The runs of a folder, by name. One that wasn't run to its end is left out."""
    found = (kept_in(folder, words.parent.name) for words in sorted(folder.glob('[!.]*/words')))
    return [kept for kept in found if kept is not None]


def command_line(folder: Path, run: Run, program: Path) -> str:
    """A line of shell that makes a run and keeps it as this tool does."""
    words = ' '.join(map(shlex.quote, run.words.plain()))
    inputs = ' '.join(map(shlex.quote, run.inputs))
    place = shlex.quote(str(folder / run.name))
    return ("mkdir -p %s && cd %s && rm -f status numbers && printf '%%s\\n' %s >words && printf '%%s\\n' %s >inputs && "
            "{ t=$(date +%%s%%N); %s %s >report.txt 2>fault.txt; s=$?; t=$((($(date +%%s%%N) - t) / 1000000)); "
            "printf '%%d.%%03d\\n' $((t / 1000)) $((t %% 1000)) >seconds; echo $s >status; }") % (
                place, place, words, inputs, shlex.quote(str(program)), words)
