"""Repeatable choices from a seed."""

import random
from typing import Any, Sequence, Tuple


class Choices:
    """Choices built on random() alone, whose sequence Python keeps for a seed."""

    def __init__(self, seed: int) -> None:
        self._random = random.Random(seed)

    def below(self, count: int) -> int:
        """A number from 0 to count - 1."""
        return int(self._random.random() * count)

    def chance(self, probability: float) -> bool:
        """True with the given probability."""
        return self._random.random() < probability

    def pick(self, values: Sequence[Any]) -> Any:
        """One of the values."""
        return values[self.below(len(values))]

    def near(self, values: Sequence[Any]) -> Any:
        """One of the values, mostly of the first few, now and then the last."""
        if self.chance(0.05):
            return values[-1]
        return self.pick(values if self.chance(0.1) else values[:6])

    def some(self, values: Sequence[Any], probability: float) -> list:
        """The values that pass a chance each."""
        return [value for value in values if self.chance(probability)]

    def weighted(self, table: Sequence[Tuple[Any, float]]) -> Any:
        """One of the first entries, by the weights beside them."""
        mark = self._random.random() * sum(weight for _, weight in table)
        for value, weight in table:
            mark -= weight
            if mark < 0:
                return value
        return table[-1][0]

    def data(self, length: int) -> bytes:
        """Bytes without any form."""
        return bytes(self.below(256) for _ in range(length))
