"""One run of omega, kept in a folder. It stands alone, since it is sent to other machines as it is."""
import os
import shutil
import socket
import subprocess
import sys
import threading
import time
from typing import Any, Dict, List, Optional, Tuple

# What the program ends with where another run would end the same: done, refused words, refused tables.
SETTLED = (0, 2, 3)


class Starter:
    """Starts programs."""

    def start(self, command: List[str], **how: Any) -> 'subprocess.Popen[bytes]':
        return subprocess.Popen(command, stdin=subprocess.DEVNULL, **how)

    def is_stopped(self) -> bool:
        """Whether what ran was ended because all is to end."""
        return False


def timed(starter: Starter, command: List[str], folder: str) -> Tuple[int, float]:
    """Runs a command in a folder, with its output there. Answers its status, 128 and the signal's number where
    it was ended by one, and the seconds that it took."""
    begin = time.monotonic()
    with open(os.path.join(folder, 'report.txt'), 'wb') as report, open(os.path.join(folder, 'fault.txt'), 'wb') as fault:
        status = starter.start(command, stdout=report, stderr=fault, cwd=folder).wait()
    return status if status >= 0 else 128 - status, time.monotonic() - begin


def run_one(folder: str, name: str, program: str, words: List[str], inputs: List[str], sweep: str,
            chosen: Optional[Starter] = None) -> Dict[str, object]:
    """Runs the program and keeps the run as FOLDER/NAME: its words, what they were run on, the report, what was
    said of a fault, the seconds and the status, each in a file. It is made under another name, so that a run
    that is ended in the middle leaves nothing under this one."""
    starter = chosen or Starter()
    own = os.path.join(folder, '.%s-%s-%s-%d-%d' % (sweep, name[:80], socket.gethostname(), os.getpid(),
                                                    threading.get_ident()))
    os.makedirs(own)
    try:
        put(own, 'words', words)
        put(own, 'inputs', inputs)
        status, seconds = timed(starter, [program, *words], own)
        put(own, 'seconds', ['%.3f' % seconds])
        put(own, 'status', [str(status)])
        if status in SETTLED or not starter.is_stopped():
            take_place(own, os.path.join(folder, name))
    finally:
        shutil.rmtree(own, ignore_errors=True)
    return {'name': name, 'status': status, 'seconds': round(seconds, 1), 'where': socket.gethostname()}


def run_and_read(folder: str, name: str, program: str, words: List[str], inputs: List[str], sweep: str,
                 reader: List[str]) -> Dict[str, object]:
    """The same, and then the report is read by a Python program, which is called with the run's folder."""
    outcome = run_one(folder, name, program, words, inputs, sweep)
    if outcome['status'] == 0:
        subprocess.run([sys.executable, *reader, os.path.join(folder, name)], stdin=subprocess.DEVNULL,
                       stdout=subprocess.DEVNULL, stderr=subprocess.DEVNULL)
    return outcome


def put(folder: str, name: str, lines: List[str]) -> None:
    with open(os.path.join(folder, name), 'w') as file:
        file.writelines(line + '\n' for line in lines)


def take_place(own: str, path: str) -> None:
    """Gives a folder its name. What had it goes."""
    for _ in range(100):
        try:
            os.rename(own, path)
            return
        except OSError:
            if not os.path.isdir(path):
                raise
        old = '%s.old' % own
        try:
            os.rename(path, old)
        except FileNotFoundError:
            continue
        shutil.rmtree(old, ignore_errors=True)
    raise OSError('%s is taken again and again' % path)
