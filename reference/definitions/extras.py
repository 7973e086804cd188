"""How many extra tasks a MapReduce job gets."""
from .need import Need
from .settings import Settings


def target(extra: str, activities: int, asked: int) -> int:
    """How many tasks a job should have: its activities, but under `relative` at most four times its wanted tasks."""
    return min(activities, 4 * asked) if extra == 'relative' else activities


def keeps_within(percent: int, need: Need, used: Need, capacity: Need, count: int) -> bool:
    """Whether so many more tasks keep the use of the cell within this percentage of what there is."""
    return all((use + count * more) * 100 <= whole * percent for use, more, whole in zip(used, need, capacity))


def extras(settings: Settings, activities: int, asked: int, running: int, need: Need, used: Need,
           capacity: Need) -> int:
    """The target less the wanted tasks and less the extras that run; under `cap` the most of these that keep the use
    within the percentage, and none where not even that many as 0 do."""
    number = max(0, target(settings.extra, activities, asked) - asked - running)
    if settings.extra != 'cap':
        return number
    return max((count for count in range(number + 1)
                if keeps_within(settings.cap, need, used, capacity, count)), default=0)
