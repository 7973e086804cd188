"""Pools of processes, none of which outlives the one that made them."""
import contextlib
import multiprocessing
import multiprocessing.connection
import os
import signal
import threading
from concurrent.futures import ProcessPoolExecutor
from typing import Any, Callable, Iterator, Tuple


def begin(more: Callable[..., object], arguments: Tuple[Any, ...]) -> None:
    """How a process of a pool begins. Whoever made it is interrupted, and ends it; where that one is gone it ends."""
    signal.signal(signal.SIGINT, signal.SIG_IGN)
    threading.Thread(target=end_with_parent, daemon=True).start()
    more(*arguments)


def end_with_parent() -> None:
    parent = multiprocessing.parent_process()
    if parent is not None:
        multiprocessing.connection.wait([parent.sentinel])
        os._exit(1)


def nothing() -> None:
    """What most processes do before they work."""


@contextlib.contextmanager
def pool_of(count: int, more: Callable[..., object] = nothing, *arguments: Any) -> Iterator[ProcessPoolExecutor]:
    """So many processes, each of which calls `more` first. Where something goes wrong all of them are ended."""
    how = multiprocessing.get_context('spawn')
    with ProcessPoolExecutor(count, how, begin, (more, arguments)) as pool:
        try:
            yield pool
        except BaseException:
            end_all()
            raise


def end_all() -> None:
    """Ends the processes of all pools."""
    for process in multiprocessing.active_children():
        process.terminate()
