"""The words of the lines of a report: those of commits and of claims."""
from .entries import PLACED, Claim, Commit, Judgement

Line = tuple[str | int, ...]

FIRST_LINE: Line = ('omega', 2)


def claim_lines(claim: Claim, judgement: Judgement) -> list[Line]:
    """A placed claim has a line for each task that it evicts, and its own behind them; any other is a refusal."""
    if judgement.verdict != PLACED:
        return [('refuse', *claim.key, claim.machine, judgement.verdict.word, *judgement.verdict.numbers)]
    return [*(('evict', *key, claim.machine) for key in judgement.evicted), ('place', *claim.key, claim.machine)]


def commit_lines(commit: Commit) -> list[Line]:
    """The line of a commit and those of its claims."""
    lines: list[Line] = [('commit', commit.scheduler, commit.seen, commit.txn.job)]
    for claim, judgement in zip(commit.txn.claims, commit.reply):
        lines += claim_lines(claim, judgement)
    return lines
