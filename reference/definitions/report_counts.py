"""What the last lines of a report count."""
from .entries import Commit
from .growing import Growing
from .keys import TaskKey
from .report import Line
from .requests import is_given_up
from .state import History


def commits_by(history: History, scheduler: int) -> list[Commit]:
    return [entry for entry in history.entries if isinstance(entry, Commit) and entry.scheduler == scheduler]


def scheduler_line(history: History, scheduler: int) -> Line:
    """The counts of a scheduler. Of its commits: all, those that claim nothing, those with a claim that is placed,
    those with one that isn't. Of what is answered to their claims: placed, refused, withdrawn for their gang. And the
    tasks that the placed claims evicted."""
    commits = commits_by(history, scheduler)
    judgements = [judgement for commit in commits for judgement in commit.reply]
    placed = [judgement for judgement in judgements if judgement.admits]
    withdrawn = sum(judgement.verdict.word == 'withdrawn' for judgement in judgements)
    return ('scheduler', scheduler, 'commits', len(commits),
            'empty', sum(not commit.txn.claims for commit in commits),
            'placing', sum(any(judgement.admits for judgement in commit.reply) for commit in commits),
            'conflicted', sum(any(not judgement.admits for judgement in commit.reply) for commit in commits),
            'placed', len(placed), 'refused', len(judgements) - len(placed) - withdrawn, 'withdrawn', withdrawn,
            'evicted', sum(len(judgement.evicted) for judgement in placed))


def waiting(world: Growing) -> list[TaskKey]:
    """The tasks that are wanted at the end and don't run then."""
    return [key for key in world.wanted if world.history.cell.machine_of(key) is None]


def waiting_line(world: Growing) -> Line:
    """How many tasks wait, and how many of their jobs are given up."""
    jobs = {key.job for key in waiting(world)}
    abandoned = [job for job in jobs if is_given_up(world.workload.settings, world.history.failed, job)]
    return ('waiting', len(waiting(world)), 'abandoned', len(abandoned))
