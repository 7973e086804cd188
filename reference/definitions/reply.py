"""What is answered to a transaction."""
from .cell import Cell, Task
from .entries import Claim, Judgement, Txn, Verdict
from .judge import changed, judged
from .touches import Touches


def place(cell: Cell, claim: Claim, judgement: Judgement) -> None:
    """A placed claim stops the tasks that it evicts, and starts its own; any other changes nothing."""
    if judgement.admits:
        for key in judgement.evicted:
            cell.stop(key)
        cell.start(Task(claim.key, claim.machine, claim.spec))


def judgements(touches: Touches, length: int, seen: int, cell: Cell, txn: Txn) -> list[Judgement]:
    """What is answered to the claims in order, to each on the cell after those before it."""
    cell, out = cell.copy(), []
    for claim in txn.claims:
        judgement = judged(changed(touches, length, seen, txn.rule, claim), cell, claim)
        place(cell, claim, judgement)
        out.append(judgement)
    return out


def all_or_nothing(reply: list[Judgement]) -> list[Judgement]:
    """A gang with a refusal keeps nothing: what would be placed is withdrawn for the first refused claim."""
    refused = next((at for at, judgement in enumerate(reply) if not judgement.admits), None)
    if refused is None:
        return reply
    withdrawn = Judgement(Verdict('withdrawn', (refused,)))
    return [withdrawn if judgement.admits else judgement for judgement in reply]


def reply_on(touches: Touches, length: int, cell: Cell, seen: int, txn: Txn) -> tuple[Judgement, ...]:
    """The reply to a transaction on a history of this length, by what touched its machines and the cell after it."""
    reply = judgements(touches, length, seen, cell, txn)
    return tuple(all_or_nothing(reply) if txn.mode == 'gang' else reply)
