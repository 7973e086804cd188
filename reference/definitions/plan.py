"""The plan: claims for the wishes of a request, each planned on the cell after the claims before it."""
from .cell import Cell, Machine
from .eligible import is_eligible
from .entries import Claim
from .judge import judge_fine, would_be_placed
from .keys import TaskKey
from .policy import Policy
from .reply import place
from .wishes import Wish


def claim_of(wish: Wish, id: int, victims: list[TaskKey]) -> Claim:
    """The claim of a wish on a machine, with these victims."""
    return Claim(wish.key, id, wish.spec, tuple(victims))


def may_give_way(cell: Cell, wish: Wish, id: int) -> list[TaskKey]:
    """The tasks of other jobs and of lower precedence on a machine, in the order of eviction."""
    return [task.key for task in cell.ranked_on(id)
            if task.key.job != wish.key.job and task.spec.prec < wish.spec.prec]


def victims_for(cell: Cell, wish: Wish, id: int) -> list[TaskKey] | None:
    """The fewest of these, from the front, with which the wish would be placed on the machine; nothing where not even
    all are enough."""
    candidates = may_give_way(cell, wish, id)
    for count in range(len(candidates) + 1):
        if would_be_placed(cell, claim_of(wish, id, candidates[:count])):
            return candidates[:count]
    return None


def suiting(cell: Cell, wish: Wish, start: int) -> list[Machine]:
    """The machines whose attributes meet the wish's constraints, in order from a place on and round."""
    machines = cell.machines()
    return [machine for machine in machines[start:] + machines[:start] if is_eligible(wish.constraints, machine.attrs)]


def claim_for(cell: Cell, wish: Wish, start: int, policy: Policy) -> Claim | None:
    """The claim on the first machine that suits and on which the wish would be placed without victims; else, where the
    policy allows it, on the first on which evictions make room; else nothing."""
    machines = suiting(cell, wish, start)
    for machine in machines:
        claim = claim_of(wish, machine.id, [])
        if would_be_placed(cell, claim):
            return claim
    for machine in machines if policy.may_evict else []:
        victims = victims_for(cell, wish, machine.id)
        if victims is not None:
            return claim_of(wish, machine.id, victims)
    return None


def plan_for(cell: Cell, wishes: list[Wish], start: int, policy: Policy) -> tuple[Claim, ...]:
    """The claims for these wishes in order. One that finds no machine is left out, and empties the plan of a gang."""
    cell, claims = cell.copy(), []
    for wish in wishes:
        claim = claim_for(cell, wish, start, policy)
        if claim:
            place(cell, claim, judge_fine(cell, claim))
            claims.append(claim)
        elif policy.mode == 'gang':
            return ()
    return tuple(claims)
