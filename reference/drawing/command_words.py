"""Random words: a command and options, most of them right."""
import random
from typing import Callable

from .scenes import Scene
from .texts import number_text

COMMANDS = {'replay': 50, 'run': 12, 'generate': 3, 'simulate': 40, 'resume': 12, 'audit': 10}
TIMES = ('t-job', 't-task', 'service-t-job', 'service-t-task')
# Where lives of tasks are the theme it is mostly the command on which they count.
COMMANDS_OF_LIVES = {**COMMANDS, 'simulate': 500}
# Which clock goes on `simulate`, whether the times of commits are told, and how tasks end.
CLOCKS = {'clock': ['free', 'free', 'free', 'rounds'], 'times': ['no', 'yes', 'yes'], 'ends': ['trace', 'own', 'own']}

# A theme chooses some options, so that what it is about comes often.
CHOSEN: dict[str, dict[str, list]] = {
    'evictions': {'preempt': ['all'], 'batch': [2, 3, 4], 'rule': ['fine', 'fine', 'coarse']},
    'gangs': {'mode': ['gang'], 'batch': [2, 3, 4], 'preempt': ['none', 'all']},
    'coarse': {'rule': ['coarse'], 'batch': [2, 3, 4]},
    'mapreduce': {'extra': ['max', 'cap', 'cap', 'relative'], 'cap': [30, 60, 100]},
    'give-up': {'give-up': [1, 2, 3], 'tries': [1, 2, 5]},
    'lives': {'clock': ['free'], 'ends': ['trace', 'own', 'own', 'own', 'own'], 'preempt': ['none', 'service', 'all', 'all']},
}
# What a program must refuse, put behind the words.
WRONG = (['--seed'], ['extra'], ['--batch', '31'], ['--rule', 'loose'], ['--help'], ['--window', '0'], ['-h'],
         ['--give-up', '1001'], ['--t-job', '1000000001'], ['--batch', '+2'], ['--tables', '-x'], ['--', '--seed', '1'],
         ['--clock', 'slow'], ['--clock'], ['--times', '1'], ['--ends=Own'], ['--ends'])


def decision_times(scene: Scene, name: str) -> list[int]:
    """Decisions that take from no time to longer than some rounds, the usual time among them. Where lives of tasks are
    the theme most are shorter than a round, so that many tasks are placed and end before all rounds have opened."""
    usual, parts = 5_000 if 'task' in name else 100_000, (1, 3, 4, 6, 20)
    if scene.theme == 'lives':
        return [0, 1, *(min(10**9, part * scene.window // 20) for part in parts * 2), usual]
    return [0, 1, usual, *(min(10**9, part * scene.window // 4) for part in parts), 10**9]


def values(scene: Scene) -> dict[str, Callable]:
    """How the value of each option is drawn."""
    rng = scene.rng
    spans = [1, 3 * scene.window, 1_099_511_627_776]
    draws: dict[str, Callable] = {
        'seed': lambda: rng.choice([0, 1, rng.getrandbits(64), 2**64 - 1]),
        'window': lambda: scene.window if rng.random() < 0.8 else rng.choice(spans),
        'machines': lambda: rng.randint(0, 5),
        'jobs': lambda: rng.randint(0, 30),
        'kept': lambda: 'k.db',
        'tables': lambda: '.',
    }
    choices = {'batch': [1, 2, 2, 3, 4, 30], 'rule': ['fine', 'coarse', 'coarse'], 'mode': ['incremental', 'gang'],
               'preempt': ['none', 'service', 'all', 'all'], 'extra': ['max', 'cap', 'cap', 'relative'],
               'cap': [0, 30, 60, 100], 'tries': [1, 2, 3, 5, 100], 'give-up': [1, 2, 3, 6, 1000],
               'format': ['text', 'text', 'text', 'json'], **CLOCKS,
               **{name: decision_times(scene, name) for name in TIMES}}
    for name, some in (choices | CHOSEN.get(scene.theme, {})).items():
        draws[name] = lambda some=some: rng.choice(some)
    return draws


def names_for(scene: Scene, command: str, commands: list[str]) -> list[str]:
    """The options that are given: some of all those that the commands make sense of, and those that a theme wants."""
    rng = scene.rng
    left_out = set((*CLOCKS, *TIMES) if 'simulate' not in commands else ())
    left_out |= set() if {'resume', 'audit'} & set(commands) else {'kept'}
    names = {name for name in sorted(values(scene)) if rng.random() < 0.45} - left_out
    names |= {*CHOSEN.get(scene.theme, ()), *(TIMES if scene.theme == 'lives' else ())} - left_out
    if command == 'simulate':
        names |= {name for name in (*CLOCKS, *TIMES) if rng.random() < 0.6}
    if command == 'generate':
        names |= {'machines', 'jobs'}
    elif scene.window != 300_000_000:
        names.add('window')
    return sorted(names)


def draw_words(scene: Scene, commands: list[str]) -> list[str]:
    """A command, of these, and options in any order; now and then not plain, or wrong."""
    rng, draws = scene.rng, values(scene)
    weights = COMMANDS_OF_LIVES if scene.theme == 'lives' else COMMANDS
    command = rng.choices(commands, [weights[name] for name in commands])[0]
    options, names = [], names_for(scene, command, commands)
    rng.shuffle(names)
    for name in names:
        value = draws[name]()
        options.append(['--' + name, number_text(rng, value) if isinstance(value, int) else value])
    if rng.random() < 0.06:
        return not_plain(rng, command, options)
    words = [command] + [word for option in options for word in option]
    return words + (rng.choice(WRONG) if rng.random() < 0.02 else [])


def not_plain(rng: random.Random, command: str, options: list[list[str]]) -> list[str]:
    """The same words as a program may be given them, too: with values joined, the command anywhere, two hyphens."""
    groups = [['='.join(option)] if rng.random() < 0.5 else option for option in options]
    place = rng.randint(0, len(groups))
    groups.insert(place, [command])
    if place == len(groups) - 1 and rng.random() < 0.5:
        groups.insert(place, ['--'])
    elif rng.random() < 0.3:
        groups.append(['--'])
    return [word for group in groups for word in group]
