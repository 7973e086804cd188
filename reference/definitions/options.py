"""The table of words: the commands, and each option with its values."""
from typing import NamedTuple

from .numbers import whole

COMMANDS = ('replay', 'run', 'generate', 'simulate', 'resume', 'audit')


class AnyText(NamedTuple):
    """Any text, as the name of a folder or of a file."""

    def value(self, text: str) -> str | None:
        return text


class Span(NamedTuple):
    """The whole numbers from the low one to the high one."""
    low: int
    high: int

    def value(self, text: str) -> int | None:
        number = whole(text.encode())
        return number if number is not None and self.low <= number <= self.high else None


class OneOf(NamedTuple):
    names: tuple[str, ...]

    def value(self, text: str) -> str | None:
        return text if text in self.names else None


DECISION_TIME = Span(0, 1_000_000_000)

OPTIONS: dict[str, AnyText | Span | OneOf] = {
    'tables': AnyText(),
    'seed': Span(0, 2**64 - 1),
    'batch': Span(1, 30),
    'rule': OneOf(('fine', 'coarse')),
    'mode': OneOf(('incremental', 'gang')),
    'preempt': OneOf(('none', 'service', 'all')),
    'extra': OneOf(('max', 'cap', 'relative')),
    'cap': Span(0, 100),
    'tries': Span(1, 100),
    'give-up': Span(1, 1000),
    'window': Span(1, 1_099_511_627_776),
    'format': OneOf(('text', 'json')),
    'machines': Span(0, 4096),
    'jobs': Span(0, 20_000),
    't-job': DECISION_TIME,
    't-task': DECISION_TIME,
    'service-t-job': DECISION_TIME,
    'service-t-task': DECISION_TIME,
    'clock': OneOf(('rounds', 'free')),
    'times': OneOf(('no', 'yes')),
    'ends': OneOf(('trace', 'own')),
    'kept': AnyText(),
}
