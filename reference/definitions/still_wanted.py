"""What of a request, and of a plan, is still wanted: tasks may have ended since it was made."""
from .entries import Txn
from .keys import FIRST_EXTRA, TaskKey
from .wanted import Wanted, wanted_of
from .wishes import Request


def is_wanted(wanted: Wanted, key: TaskKey) -> bool:
    """A task of the trace is where it is among those that are wanted now, an extra one where any task of its job is."""
    return bool(wanted_of(wanted, key.job)) if key.index >= FIRST_EXTRA else key in wanted


def wanted_part(wanted: Wanted, request: Request) -> Request:
    """The request with those of its wishes that are still wanted, as they were made."""
    return Request(request.job, [wish for wish in request.wishes if is_wanted(wanted, wish.key)])


def wanted_claims(wanted: Wanted, txn: Txn) -> Txn:
    """The transaction with those of its claims whose tasks are still wanted."""
    return txn._replace(claims=tuple(claim for claim in txn.claims if is_wanted(wanted, claim.key)))
