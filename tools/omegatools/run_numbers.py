"""What a kept run comes to: read from its report once, where it was made, and kept beside it as `numbers`."""
import json
import zipfile
from pathlib import Path
from typing import Dict, List, Optional

from .common import Refusal
from .reports import Report
from .tables import results

Numbers = Dict[str, float]
SHORT = 1 << 20     # a report of so many bytes is read more quickly than a process is started


def stamp(report: Path, form: str) -> List[object]:
    """What numbers are of: how they are read, and which report it is."""
    stat = report.stat()
    return [form, stat.st_size, stat.st_mtime_ns]


def kept_numbers(place: Path, form: str) -> Optional[Numbers]:
    """The numbers of a run, where they are kept and are those of its report."""
    try:
        kept = json.loads((place / 'numbers').read_text())
        if kept['of'] == stamp(place / 'report.txt', form):
            return {str(name): float(value) for name, value in kept['numbers'].items()}
    except (OSError, ValueError, KeyError, TypeError, AttributeError):
        pass
    return None


def read_numbers(place: Path, form: str) -> Numbers:
    """Reads the report of a run and keeps its numbers."""
    of = stamp(place / 'report.txt', form)
    found = results(Report(str(place / 'report.txt')))
    numbers = {name: float(value) for name, value in found.items() if isinstance(value, (int, float))}
    part = place / 'numbers.part'
    part.write_text(json.dumps({'of': of, 'numbers': numbers}) + '\n')
    part.replace(place / 'numbers')
    return numbers


def is_short(place: Path) -> bool:
    return (place / 'report.txt').stat().st_size <= SHORT


def try_to_read(place: Path, form: str) -> None:
    """The same, and a report that is none is left for who asks for its numbers."""
    try:
        read_numbers(place, form)
    except (Refusal, OSError):
        pass


def pack_reader(path: Path) -> None:
    """Writes what reads numbers as a Python program in one file, for machines that haven't this package. It is called
    with the form and the folder of a run."""
    here = Path(__file__).resolve().parent
    with zipfile.ZipFile(path, 'w', zipfile.ZIP_DEFLATED) as packed:
        packed.writestr('__main__.py', 'import pathlib\nimport sys\n\nfrom %s.run_numbers import try_to_read\n\n'
                        'try_to_read(pathlib.Path(sys.argv[2]), sys.argv[1])\n' % here.name)
        for module in sorted(here.glob('*.py')):
            packed.write(module, '%s/%s' % (here.name, module.name))
