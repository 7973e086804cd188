"""What is left of a scheduler's requests after its commits in a round, and the attempt that is due."""
from .cell import Cell
from .entries import Claim, Judgement, Txn
from .plan import plan_for
from .policy import policy_of
from .requests import is_given_up
from .settings import Settings
from .wishes import Request
from .workload import Workload


class Standing:
    """The requests that a scheduler has left, how many attempts were made on the first of them, and for each job how
    many commits in a row placed nothing."""

    def __init__(self, settings: Settings, requests: list[Request], failing: dict[int, int]) -> None:
        self.settings = settings
        self.left = list(requests)
        self.taken = 0
        self.failing = dict(failing)

    def first(self) -> Request | None:
        return self.left[0] if self.left else None

    def drop_first(self) -> None:
        """The first request is done with; attempts on the next one are counted anew."""
        self.left.pop(0)
        self.taken = 0

    def take(self, claims: tuple[Claim, ...], reply: tuple[Judgement, ...]) -> None:
        """One more commit. It ends the first request where all of it is placed now, or the plan was empty, or this was
        the last of its tries, or its job is given up; else the wishes that weren't placed remain."""
        job, wishes = self.left[0]
        placed = {claim.key for claim, judgement in zip(claims, reply) if judgement.admits}
        wishes = [wish for wish in wishes if wish.key not in placed]
        self.taken += 1
        self.failing[job] = 0 if placed else self.failing.get(job, 0) + 1
        if (not wishes or not claims or self.taken == self.settings.tries
                or is_given_up(self.settings, self.failing, job)):
            self.drop_first()
        else:
            self.left[0] = Request(job, wishes)


def attempt(workload: Workload, scheduler: int, number: int, seen: Cell, request: Request) -> Txn:
    """The transaction of a scheduler's attempt of this number, from 0, on a request, by what its copy has seen."""
    policy = policy_of(workload.settings, scheduler)
    start = workload.draws.start(scheduler, number, len(seen.machines()))
    return Txn(request.job, policy.rule, policy.mode, plan_for(seen, request.wishes, start, policy))
