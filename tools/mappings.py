"""The mappings that a process has of a container, in words: how many, and what made each.

A log does not tell which mapping of a sort an unmap ends: tools/provenance.py takes the latest.
"""

from collections import Counter
from typing import Iterable, List, Optional, Tuple

from model.limits import MAP_SORTS, Kind
from tools.changes import Changes
from tools.provenance import Made, Step
from tools.words import Words, joined, plural, sort_words, times

# Why a link lasts after an unmap: that to the process, and that to the container.
LASTING = ("a mapping is left", "a mapping both ways is left")

Pair = Tuple[int, int]  # a process and a container


def records_text(records: Iterable[int], present: Optional[int] = None) -> str:
    """The records that made mappings; a fork makes several, and the present record is 'this'."""
    found = Counter(records)
    single = sorted(record for record, count in found.items() if count == 1 and record != present)
    parts = [(single[0], plural("record", single))] if single else []
    for record, count in found.items():
        name = "this record" if record == present else f"record {record}"
        if count > 1 or record == present:
            many = f" ({count} of them)" if count > 1 and len(found) > 1 else ""
            parts.append((record, name + many))
    return joined(text for _, text in sorted(parts))


def mapped_text(
    words: Words, made: Made, pair: Pair, present: Optional[int] = None, still: str = ""
) -> str:
    """How often a process maps a container, by sort, and which records made these mappings."""
    who, what = words.process(pair[0]), words.container(pair[1])
    counts: List[str] = []
    for sort in MAP_SORTS:
        records = made.get((*pair, sort), ())
        if records:
            by = records_text(records, present)
            counts.append(f"{sort_words(sort)} {times(len(records))}: {by}")
    if not counts:
        return f"{who} no longer maps {what}"
    return f"{who} {still}maps {what} {', and '.join(counts)}"


def counted_lines(words: Words, step: Step) -> List[str]:
    """The mappings that a call finds whose test counts them; no line if there are none."""
    call, moment = step.record, step.before
    target = moment.state.descriptors.get((call.process, call.a))
    pair = (call.process, call.a if call.kind == Kind.UNMAP else target)
    if pair not in {key[:2] for key in moment.made}:
        return []
    return [mapped_text(words, moment.made, pair)]


def mapping_changes(words: Words, step: Step, changes: Changes) -> List[str]:
    """How often each container is mapped now of which that has changed."""
    pairs = sorted({key[:2] for key in changes.mapped})
    if not pairs or step.record.kind != Kind.UNMAP:
        return [mapped_text(words, step.after.made, pair, step.number) for pair in pairs]
    (key,) = changes.mapped
    ended = f"a mapping {sort_words(key[2])} ended: that of record {step.before.made[key][-1]}"
    return [ended, mapped_text(words, step.after.made, pairs[0], still="still ")]


def lasting_links(words: Words, step: Step, changes: Changes) -> List[str]:
    """The links that stay after an unmap, and why they do."""
    call = step.record
    if not changes.mapped or call.kind != Kind.UNMAP:
        return []
    links = ((call.a, call.caller), (call.caller, call.a))
    return [
        f"link stays: {words.link(*link)}, for {why}"
        for link, why in zip(links, LASTING)
        if link in step.after.state.links
    ]
