"""Statistics of random samples: mean with confidence interval, and quartiles."""
import math
import statistics
from typing import NamedTuple, Sequence

from arena_lab.support.missing import require

# confidence level of the interval around the mean
SURE = 0.95


class Confidence(NamedTuple):
    """Mean, half-width of its confidence interval, median and quartiles of some
    numbers."""

    mean: float
    confidence: float
    low: float
    median: float
    high: float


def student(freedom: int, sure: float = SURE) -> float:
    """Returns how many standard errors to either side of a mean one goes to be so sure,
    by Student's distribution."""
    return float(require("scipy.special").stdtrit(freedom, (1 + sure) / 2))


def spread_of(numbers: Sequence[int]) -> Confidence:
    """Summarises numbers. The half-width is 0 for a single number, for which it is
    unknown."""
    count = len(numbers)
    if count == 1:
        return Confidence(float(numbers[0]), 0.0, *[float(numbers[0])] * 3)
    confidence = student(count - 1) * statistics.stdev(numbers) / math.sqrt(count)
    low, median, high = statistics.quantiles(numbers, n=4, method="inclusive")
    return Confidence(statistics.fmean(numbers), confidence, low, median, high)
