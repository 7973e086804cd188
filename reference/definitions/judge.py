"""What is answered to one claim: a verdict, and which tasks are evicted."""
from .cell import Cell
from .entries import PLACED, Claim, Judgement, Verdict
from .keys import TaskKey, first_mentions
from .need import Need, fits, minus
from .touches import Touches


def no_machine(cell: Cell, claim: Claim) -> Verdict | None:
    """The machine isn't listed or isn't up."""
    machine = cell.machine(claim.machine)
    return None if machine and machine.up else Verdict('no-machine')


def already_running(cell: Cell, claim: Claim) -> Verdict | None:
    """The task runs already."""
    where = cell.machine_of(claim.key)
    return None if where is None else Verdict('running', (where,))


def changed(touches: Touches, length: int, seen: int, rule: str, claim: Claim) -> Verdict | None:
    """Under the coarse rule: an entry that the copy hadn't seen touches the machine."""
    now, copy = touches.seq(claim.machine, length), touches.seq(claim.machine, seen)
    return Verdict('changed', (now, copy)) if rule == 'coarse' and now != copy else None


def standing_victims(cell: Cell, claim: Claim) -> list[TaskKey]:
    """The victims that run on the claim's machine, each where it is named first."""
    return [key for key in first_mentions(claim.victims) if key in cell.tasks_on(claim.machine)]


def victim_rank(cell: Cell, claim: Claim) -> Verdict | None:
    """The first standing victim whose precedence isn't lower than the claim's."""
    for key in standing_victims(cell, claim):
        if cell.task(key).spec.prec >= claim.spec.prec:
            return Verdict('victim-rank', key)
    return None


def rival(cell: Cell, claim: Claim, gone: list[TaskKey]) -> TaskKey | None:
    """Where the claim wants to be alone of its job: the job's task with the least index that stays beside these."""
    if not claim.spec.differ:
        return None
    stay = (key for key in cell.tasks_on(claim.machine) if key.job == claim.key.job and key not in gone)
    return min(stay, default=None)


def same_job(cell: Cell, claim: Claim) -> Verdict | None:
    """Another task of the job stays beside the standing victims, and the claim wants to be alone."""
    key = rival(cell, claim, standing_victims(cell, claim))
    return None if key is None else Verdict('same-job', key)


def free_without(cell: Cell, claim: Claim, gone: list[TaskKey]) -> Need:
    """What is free on the claim's machine once these tasks are off it."""
    return minus(cell.capacity_of(claim.machine), cell.rest_on(claim.machine, gone))


def full(cell: Cell, claim: Claim) -> Verdict | None:
    """What is free once all standing victims are off is too little."""
    free = free_without(cell, claim, standing_victims(cell, claim))
    return None if fits(claim.spec.need, free) else Verdict('full', free)


def evicted_for(cell: Cell, claim: Claim) -> tuple[TaskKey, ...]:
    """Of a placed claim's standing victims, in order, no more than make room for it."""
    standing = standing_victims(cell, claim)
    for count in range(len(standing) + 1):
        gone = standing[:count]
        if fits(claim.spec.need, free_without(cell, claim, gone)) and rival(cell, claim, gone) is None:
            return tuple(gone)
    raise AssertionError('a claim that is placed has room without all its standing victims')


def judged(change: Verdict | None, cell: Cell, claim: Claim) -> Judgement:
    """What is answered where this is said of a change of the machine: the first refusal in order, else it is placed."""
    verdict = (no_machine(cell, claim) or already_running(cell, claim) or change or victim_rank(cell, claim)
               or same_job(cell, claim) or full(cell, claim) or PLACED)
    return Judgement(verdict, evicted_for(cell, claim) if verdict == PLACED else ())


def judge_fine(cell: Cell, claim: Claim) -> Judgement:
    """What is answered to a claim under the fine rule, whatever the history."""
    return judged(None, cell, claim)


def would_be_placed(cell: Cell, claim: Claim) -> bool:
    return judge_fine(cell, claim).admits
