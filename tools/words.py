"""Numbers of the box in words, with the tester's own names behind them."""

from typing import Dict, Iterable, List, Optional

from model.limits import DEVICES, PROCESSES, PROCESS_CONTAINERS, MapSort, process_container
from model.logtext import CONTAINER_NAMES, DEVICE_NAMES, set_text
from tools.names import NO_OWN, Own

MOST_NAMED = 4  # items in a row that are named one by one
SORTS = {MapSort.MAPPED_READ: "for reading", MapSort.MAPPED_BOTH: "both ways"}
TIMES = {1: "once", 2: "twice"}


def joined(parts: Iterable[str], last: str = "and") -> str:
    """Parts in a row: a, b and c."""
    *front, end = list(parts) or ["nothing"]
    return f"{', '.join(front)} {last} {end}" if front else end


def numbers_text(numbers: Iterable[int]) -> str:
    """Numbers in a row, runs as: 25 to 63."""
    return set_text(numbers, comma=", ", dash=" to ")


def plural(word: str, numbers: List[int]) -> str:
    """A word before its numbers."""
    return f"{word}{'s' if len(numbers) > 1 else ''} {numbers_text(numbers)}"


def sort_words(sort: int) -> str:
    """What a sort of mapping is for."""
    return SORTS.get(sort, f"of sort {sort}")


def times(count: int) -> str:
    """How often: once, twice, 3 times."""
    return TIMES.get(count, f"{count} times")


class Words:
    """How numbers are said: the own names, and which containers are files and which pipes."""

    def __init__(self, own: Own = NO_OWN, sorts: Optional[Dict[int, str]] = None) -> None:
        self.own = own
        self.sorts = sorts or {}

    def own_name(self, sort: str, number: int) -> str:
        """The tester's name, or the name of a device; empty if there is none."""
        own = self.own.get((sort, number), "")
        if not own and sort == "container" and number in DEVICE_NAMES.numbers.values():
            return DEVICE_NAMES.word(number)
        return own

    def _named(self, text: str, sort: str, number: int) -> str:
        own = self.own_name(sort, number)
        return f"{text} ({own})" if own else text

    def plain(self, number: int) -> str:
        """A container without its own name."""
        if number in DEVICES:
            return f"device {number}"
        if number in PROCESS_CONTAINERS:
            return f"process {number - PROCESS_CONTAINERS.start}"
        return f"{self.sorts.get(number, 'container')} {number}"

    def container(self, number: int) -> str:
        """A container with its own name."""
        return self._named(self.plain(number), "container", number)

    def containers(self, numbers: Iterable[int], last: str = "and") -> str:
        """Containers in a row."""
        return joined((self.container(number) for number in sorted(numbers)), last)

    def process(self, number: int) -> str:
        """A process with its own name."""
        if number not in PROCESSES:
            return f"process {number}"
        return self.container(process_container(number))

    def item(self, number: int) -> str:
        """An item with its own name."""
        return self._named(f"item {number}", "item", number)

    def items(self, numbers: Iterable[int]) -> str:
        """Items in a row; many of them by their numbers alone."""
        found = sorted(numbers)
        if len(found) > MOST_NAMED or not any(self.own_name("item", item) for item in found):
            return plural("item", found) if found else "nothing"
        return joined(map(self.item, found))

    def name(self, number: int) -> str:
        """A file name with its own name."""
        return self._named(f"name {number}", "name", number)

    def link(self, source: int, target: int) -> str:
        """A link between two containers."""
        return f"{short(source)} -> {short(target)}"


def short(number: int) -> str:
    """A container in a row of links."""
    if number in PROCESS_CONTAINERS:
        return f"process {number - PROCESS_CONTAINERS.start}"
    return CONTAINER_NAMES.word(number)


def set_words(words: Words, containers: Iterable[int], last: str = "and") -> str:
    """The containers of a rule; runs stay runs."""
    found = sorted(containers)
    if len(found) <= MOST_NAMED:
        return words.containers(found, last)
    return f"containers {numbers_text(found)}"
