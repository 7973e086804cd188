"""A scheduler's work by the free clock: a pass through one list of requests, and then through another."""
from .settings import Settings
from .still_wanted import wanted_part
from .wanted import Wanted
from .wishes import Request
from .work import Standing


class Pass(Standing):
    """What a scheduler has left of the requests that there were for it when the pass began, whatever has come since;
    and how many calls for a new pass there had been by then."""

    def __init__(self, settings: Settings, requests: list[Request], failing: dict[int, int], calls: int) -> None:
        super().__init__(settings, requests, failing)
        self.calls = calls

    def wanted_first(self, wanted: Wanted) -> Request | None:
        """What is to be decided next: of the first request what is still wanted. One of which nothing is leaves the
        pass, but a later one is looked at when it is the first. A wish that isn't wanted now stays in its request, and
        is tried when it is wanted again."""
        while self.left:
            request = wanted_part(wanted, self.left[0])
            if request.wishes:
                return request
            self.drop_first()
        return None
