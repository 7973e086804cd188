"""What the study's modules have in common: a refusal, digests of files, and where things lie."""
import hashlib
from pathlib import Path
from typing import Iterable

BENCH = Path(__file__).resolve().parent.parent
ROOT = BENCH.parent
DIGITS = 16     # of a digest, as it stands in tables


class Refusal(Exception):
    """What is wrong, in one line for the one who called."""


def digest_of_bytes(data: bytes) -> str:
    return hashlib.sha256(data).hexdigest()[:DIGITS]


def digest_of_files(paths: Iterable[Path], base: Path) -> str:
    """A short text that stands for the names and bytes of some files, in their order."""
    whole = hashlib.sha256()
    for path in paths:
        one = hashlib.sha256()
        with open(path, 'rb') as file:
            for block in iter(lambda: file.read(1 << 20), b''):
                one.update(block)
        whole.update(('%s %s\n' % (path.relative_to(base), one.hexdigest())).encode())
    return whole.hexdigest()[:DIGITS]


# What decides what a run's numbers are, beside the program: the trace, the words, and what is read of a report.
MEASURING = ('tables.py', 'studying/common.py', 'studying/measures.py', 'studying/points.py', 'studying/traces.py')


def measuring() -> str:
    """The digest of the scripts on which the numbers of the study's runs depend."""
    return digest_of_files([BENCH / name for name in MEASURING], BENCH)
