"""Which machines an entry touches, and the sequence numbers that come of it."""
import bisect

from .entries import Commit, Entry, RoundBegins


def touched_by(entry: Entry) -> set[int]:
    """The machine that the entry is about, or on which its task ends; for a commit those of its placed claims."""
    if isinstance(entry, RoundBegins):
        return set()
    if isinstance(entry, Commit):
        return {claim.machine for claim, judgement in zip(entry.txn.claims, entry.reply) if judgement.admits}
    return {entry.machine}


class Touches:
    """For each machine the places of the entries that touch it, in order."""

    def __init__(self) -> None:
        self.places: dict[int, list[int]] = {}

    def note(self, place: int, entry: Entry) -> None:
        for id in touched_by(entry):
            self.places.setdefault(id, []).append(place)

    def seq(self, id: int, count: int) -> int:
        """The sequence number of a machine after so many entries: how many of them touch it."""
        return bisect.bisect_left(self.places.get(id, []), count)
