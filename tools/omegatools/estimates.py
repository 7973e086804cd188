"""Means of a few values, and how far from them the true mean may be."""
import math
from typing import NamedTuple, Optional, Sequence

# Of Student's distribution: what 95 per cent lie within, for 1, 2 and more degrees of freedom.
WITHIN = (12.7062, 4.3027, 3.1824, 2.7764, 2.5706, 2.4469, 2.3646, 2.3060, 2.2622, 2.2281, 2.2010, 2.1788, 2.1604, 2.1448,
          2.1314, 2.1199, 2.1098, 2.1009, 2.0930, 2.0860, 2.0796, 2.0739, 2.0687, 2.0639, 2.0595, 2.0555, 2.0518, 2.0484,
          2.0452, 2.0423)
NORMAL = 1.959964


def within(degrees: int) -> float:
    """How many standard errors to either side of a mean 95 per cent lie."""
    if degrees <= len(WITHIN):
        return WITHIN[degrees - 1]
    z = NORMAL      # and the first terms of the series in 1 / degrees
    return (z + (z ** 3 + z) / (4 * degrees) + (5 * z ** 5 + 16 * z ** 3 + 3 * z) / (96 * degrees ** 2)
            + (3 * z ** 7 + 19 * z ** 5 + 17 * z ** 3 - 15 * z) / (384 * degrees ** 3))


class Estimate(NamedTuple):
    """A mean, and where there are two values or more the 95 per cent interval of the true one."""
    mean: float
    low: Optional[float]
    high: Optional[float]


def estimate(values: Sequence[float]) -> Optional[Estimate]:
    """The mean of values that are drawn independently of each other, with its interval."""
    if not values:
        return None
    count, mean = len(values), math.fsum(values) / len(values)
    if count == 1:
        return Estimate(mean, None, None)
    deviation = math.sqrt(math.fsum((value - mean) ** 2 for value in values) / (count - 1))
    half = within(count - 1) * deviation / math.sqrt(count)
    return Estimate(mean, mean - half, mean + half)
