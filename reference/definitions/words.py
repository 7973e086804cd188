"""Which words are taken, and the settings that they give.

The words are one command and options, as a program with one positional word and options of one value each takes them:
`--name value` or `--name=value`, in any order, each at most once; behind `--` stand positional words alone. A word of a
single hyphen is a value or a positional word; one of a hyphen and more is an option that there isn't."""
from .options import COMMANDS, OPTIONS
from .refusals import usage
from .settings import Settings


class Taking:
    """Words that are read one by one: the command, the text of each option, and what is expected next."""

    def __init__(self) -> None:
        self.command: str | None = None
        self.texts: dict[str, str] = {}
        self.awaiting: str | None = None
        self.only_positional = False

    def take(self, word: str) -> None:
        if self.only_positional or word == '-' or not word.startswith('-'):
            self.plain_word(word)
        elif self.awaiting is not None:
            raise usage()
        elif word == '--':
            self.only_positional = True
        elif word.startswith('--'):
            self.option(*word[2:].partition('='))
        else:
            raise usage()

    def plain_word(self, word: str) -> None:
        """The value of the option before it, or else the command."""
        if self.awaiting is not None:
            self.texts[self.awaiting] = word
            self.awaiting = None
        elif self.command is None:
            self.command = word
        else:
            raise usage()

    def option(self, name: str, equals: str, text: str) -> None:
        if name not in OPTIONS or name in self.texts:
            raise usage()
        if equals:
            self.texts[name] = text
        else:
            self.awaiting = name


def is_text(word: str) -> bool:
    """Whether a word is UTF-8: another stands with its bytes escaped, which can't be encoded."""
    try:
        word.encode()
        return True
    except UnicodeEncodeError:
        return False


def texts_in(words: list[str]) -> tuple[str, dict[str, str]]:
    """The command and the texts of options that words have, or their refusal."""
    taking = Taking()
    for word in words:
        if not is_text(word):
            raise usage()
        taking.take(word)
    if taking.command not in COMMANDS or taking.awaiting is not None:
        raise usage()
    return taking.command, taking.texts


def settings_by(command: str, texts: dict[str, str]) -> Settings:
    """The settings that texts give: each option's value, or its default. The decision times of services are those of
    the other schedulers where they aren't given."""
    values = {name.replace('-', '_'): OPTIONS[name].value(text) for name, text in texts.items()}
    if None in values.values():
        raise usage()
    settings = Settings(command, **values)
    own = {'service_t_job': settings.t_job, 'service_t_task': settings.t_task}
    return settings._replace(**{name: value for name, value in own.items() if name not in values})


def settings_of(words: list[str]) -> Settings:
    """The settings of words, or their refusal."""
    return settings_by(*texts_in(words))
