"""The checks on random logs find tools that are made wrong on purpose."""

import re
from typing import Any, Callable, Dict, List, Tuple
from unittest import mock

from model.limits import DESCRIPTORS, Refusal
from tests.tools import manylogs
from tests.tools.session import Session
from tools import boxes, changes, explain, mappings, page, provenance, reasons, scene, views
from tools.reasons import WORDINGS

LOGS = 60  # within which each must be found
RARE = {"offers what is stopped": 100}  # but for these

# Each makes a wrong function from the right one.
Maker = Callable[[Any], Any]


def keeps_lost_ways(right: Callable) -> Callable:
    """Ways stay after their items are gone."""
    return lambda moment, *rest: {**moment.origins, **right(moment, *rest)}


def forgets_givers(right: Callable) -> Callable:
    """A way begins at the last call that gave the item."""
    return lambda *given: {key: way._replace(before=None) for key, way in right(*given).items()}


def skips_links(right: Callable) -> Callable:
    """A path has its ends only."""
    return lambda *given: {end: (way[0], *way[1:][-1:]) for end, way in right(*given).items()}


def renews_links(right: Callable) -> Callable:
    """Every link is said to begin in the last record."""

    def moved_on(moment: Any, after: Any, number: int, *rest: Any) -> Any:
        made = right(moment, after, number, *rest)
        return made._replace(began=dict.fromkeys(made.began, number))

    return moved_on


def first_ends_first(right: Callable) -> Callable:
    """Of several mappings of a sort the first is said to end, and the latest to be left."""

    def made_after(made: Any, after: Any, number: int) -> Any:
        turned = {key: made[key][-after.mappings.get(key, 0) :] for key in made}
        return right(turned, after, number)

    return made_after


def counts_sorts_together(right: Callable) -> Callable:
    """Mappings of both sorts are said to be for reading."""

    def mapped_text(words: Any, made: Any, pair: Any, *rest: Any, **more: Any) -> str:
        both = made.get((*pair, 0), ()) + made.get((*pair, 1), ())
        return right(words, {(*pair, 0): both}, pair, *rest, **more)

    return mapped_text


def says_nothing(right: Callable) -> Callable:
    """No line is said."""
    return lambda *given: []


def draws_no_counts(right: Callable) -> Callable:
    """No link says how often it is mapped."""
    return lambda view: {}


def tells_one_more(right: Callable) -> Callable:
    """One container too many is said to have gained."""

    def answer_meaning(words: Any, answer: Any) -> str:
        more = answer.word in ("allow", "modify") and answer.numbers[-1] > 0
        told = (*answer.numbers[:-1], answer.numbers[-1] + 1)
        return right(words, answer._replace(numbers=told) if more else answer)

    return answer_meaning


def all_held(right: Callable) -> Callable:
    """Whoever holds anything is said to have gained it all."""
    return lambda before, after: {c: items for c, items in after.items.items() if items}


def no_mark(right: str) -> str:
    """No box is marked."""
    return "marked"


def lists_nobody(right: Callable) -> Callable:
    """The page does not list those that gained."""
    return lambda *given: {**right(*given), "g": []}


def forgets_closed(right: Callable) -> Callable:
    """Entries that lead nowhere any more are left out."""
    return lambda *given: {key: ends for key, ends in right(*given).items() if ends[1] is not None}


def leaves_out_last(right: Callable) -> Callable:
    """The last of a row is left out."""
    return lambda *given: right(*given)[:-1]


def promises(right: Callable) -> Callable:
    """The record in place of a refused one is always said to be allowed."""

    def mended_lines(*given: Any) -> List[Tuple[int, str]]:
        return [
            (depth, re.sub("gets rule [0-9]+", "gets allow 0", text))
            for depth, text in right(*given)
        ]

    return mended_lines


def any_number(right: Callable) -> Callable:
    """Every field may have another number, so that a label goes to the network."""
    return lambda case, field: right(case, field) or [0]


def always(right: Callable) -> Callable:
    """Yes, whatever is asked."""
    return lambda *given: True


def every_answer(right: Tuple[str, ...]) -> Tuple[str, ...]:
    """Records that are stopped are offered too."""
    return (*right, "inhibit", "modify")


def misses_groups(right: Callable) -> Callable:
    """What is no longer there stays on the page."""
    return lambda *given: {key: group for key, group in right(*given).items() if group}


def crowds(right: Callable) -> Callable:
    """Boxes are given half of their height."""
    return lambda heights, *rest: right({c: h / 2 for c, h in heights.items()}, *rest)


def fewer_values(right: Callable) -> Callable:
    """The last value that would pass is left out."""

    def fewer(*given: Any) -> Any:
        test = right(*given)
        return test._replace(values=test.values[:-1])

    return fewer


def any_descriptor(right: Callable) -> Callable:
    """Any descriptor is said to pass."""
    return lambda *given: right(*given)._replace(values=DESCRIPTORS)


def forgets_ends(right: Callable) -> Callable:
    """What a record ended is said never to have been there."""
    return lambda *given: set()


# What is replaced, and by what.
WRONG: Dict[str, Tuple[Any, str, Maker]] = {
    "keeps the ways of what is gone": (provenance, "grown", keeps_lost_ways),
    "forgets givers": (provenance, "grown", forgets_givers),
    "skips links": (provenance, "routes", skips_links),
    "renews links": (provenance, "moved_on", renews_links),
    "takes the first mapping to end": (provenance, "made_after", first_ends_first),
    "counts both sorts as one": (mappings, "mapped_text", counts_sorts_together),
    "does not say which links stay": (explain, "lasting_links", says_nothing),
    "draws no counts": (views.View, "labels", draws_no_counts),
    "forgets what ended": (provenance, "gone", forgets_ends),
    "forgets closed entries": (changes, "moves", forgets_closed),
    "does not say the last change": (explain, "change_lines", leaves_out_last),
    "tells one more that gained": (explain, "answer_meaning", tells_one_more),
    "does not say one that gained": (explain, "gain_lines", leaves_out_last),
    "says that all who hold gained": (changes, "gains", all_held),
    "marks no box that gained": (boxes, "GAINED", no_mark),
    "lists nobody on the page": (page, "record_data", lists_nobody),
    "promises to allow": (explain, "mended_lines", promises),
    "offers what is stopped": (explain, "OFFERED", every_answer),
    "offers another thing than was meant": (reasons, "free_numbers", any_number),
    "offers a rule that protects nothing": (reasons, "protects", always),
    "hides an item": (boxes, "item_section", leaves_out_last),
    "hides a box": (views.View, "shown", leaves_out_last),
    "keeps groups of a page": (page, "difference", misses_groups),
    "draws boxes over each other": (scene, "make_plan", crowds),
}
WRONG_WORDINGS: Dict[str, Tuple[Refusal, Maker]] = {
    "leaves out what would pass": (Refusal.TAKEN, fewer_values),
    "names what would not pass": (Refusal.DESCRIPTOR_CLOSED, any_descriptor),
}


def is_found(name: str) -> bool:
    """Whether some log shows that the tools are wrong."""
    for seed in range(1, RARE.get(name, LOGS) + 1):
        try:
            if manylogs.log_faults(seed)[0]:
                return True
        except (KeyError, IndexError, RecursionError):
            return True
    return False


def test_wrong_tools(session: Session) -> None:
    """Each wrong tool is found, and the right ones are not."""
    for name, (place, attribute, make) in WRONG.items():
        with mock.patch.object(place, attribute, make(getattr(place, attribute))):
            session.checks.true(f"found: a tool that {name}", is_found(name))
    for name, (number, make) in WRONG_WORDINGS.items():
        with mock.patch.dict(WORDINGS, {number: make(WORDINGS[number])}):
            session.checks.true(f"found: a tool that {name}", is_found(name))
