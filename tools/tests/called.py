"""Calls of the tools, for their tests."""
import contextlib
import io
import os
import sys
from pathlib import Path
from typing import Callable, List, NamedTuple, Optional

TOOLS = Path(__file__).resolve().parent.parent
ROOT = TOOLS.parent
sys.path.insert(0, str(TOOLS))

from omegatools import common  # noqa: E402


class Answer(NamedTuple):
    status: int
    out: str
    err: str


def call(name: str, main: Callable[[Optional[List[str]]], int], *words: object) -> Answer:
    """What a tool answers to words, in this process."""
    out, err = io.StringIO(), io.StringIO()
    with contextlib.redirect_stdout(out), contextlib.redirect_stderr(err):
        try:
            status = common.ends(name, lambda _: main([str(word) for word in words]))
        except SystemExit as end:  # argparse ends so
            status = int(end.code or 0)
    return Answer(status, out.getvalue(), err.getvalue())


def words_in(folder: Path) -> List[str]:
    """The words of a case's folder."""
    return (folder / 'words').read_text().splitlines()


def program(folder: Path) -> Path:
    """The built program, where the caller of the tests names one, else the plain one of the reference, which is
    called by a file in the folder."""
    built = os.environ.get('OMEGA_PROGRAM')
    if built:
        return Path(built)
    plain = folder / 'plain-omega'
    plain.write_text('#!/bin/sh\nexec "%s" "%s" "$@"\n' % (sys.executable, ROOT / 'reference' / 'omega.py'))
    plain.chmod(0o755)
    return plain
