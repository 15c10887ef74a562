"""What is wrong with a history: whatever a broker that keeps its promises can't come to."""

from tests.histories.clients import ABORTED, COMMITTED, PARTS, UNKNOWN


def of_consumers(seen):
    """What is wrong with what consumers saw, for each partition a list of what each of them saw: pairs of an offset and a value."""
    for part, lists in seen.items():
        first = lists[0]
        if any(it != first for it in lists):
            yield f"consumers of {part} saw different records"
        offsets = [offset for offset, _ in first]
        if offsets != sorted({*offsets}):
            yield f"records of {part} came out of order, or at one offset twice"
        if len({value for _, value in first}) < len(first):
            yield f"a record of {part} came twice"


def ended(transaction, places):
    """How a transaction ended, where only what came of it tells."""
    if transaction.end != UNKNOWN:
        return transaction.end
    there = [value in places[part] for part, value, _ in transaction.records]
    return COMMITTED if there and all(there) else ABORTED


def of_transactions(transactions, places):
    """What is wrong with transactions, where each partition's values stand at these offsets."""
    for it in transactions:
        end, name = ended(it, places), f"transaction {it.number} of {it.id}"
        there = [part_places.get(value) for part, value, _ in it.records for part_places in (places[part],)]
        if end == ABORTED and any(offset is not None for offset in there):
            yield f"{name} is {it.end}, and seen {'whole' if all(at is not None for at in there) else 'in part'}"
        if end == COMMITTED and None in there:
            yield f"{name} is committed, and not seen whole"
        elif end == COMMITTED and there != [offset for *_, offset in it.records]:
            yield f"{name} stands at other offsets than were told"


def of_strangers(transactions, places):
    """What was seen that belongs to nothing that was committed."""
    own = {part: set() for part in PARTS}
    for it in transactions:
        if ended(it, places) == COMMITTED:
            for part, value, _ in it.records:
                own[part].add(value)
    for part in PARTS:
        for value in sorted(places[part].keys() - own[part]):
            yield f"{value} of {part} was seen, and never committed"


def of_offsets(transactions, offsets, places):
    """What is wrong with the groups' offsets, by the producers' names: each is that of the last transaction that committed one, -1
    if there is none."""
    last = dict.fromkeys(offsets, -1)
    for it in transactions:
        if it.has_offset and ended(it, places) == COMMITTED:
            last[it.id] = it.number
    for name, offset in offsets.items():
        if offset != last[name]:
            yield f"the group of {name} has the offset {offset}, and {last[name]} was committed"


def of_log(part, batches):
    """What is wrong with all batches of a log: there is a hole in it."""
    at = 0
    for it in batches:
        if it.base != at:
            yield f"the log of {part} goes on at {it.base} after {at}"
        at = it.end


def faults(transactions, seen, offsets, logs):
    """All that is wrong."""
    places = {part: {value: offset for offset, value in seen[part][0]} for part in PARTS}
    found = [*of_consumers(seen), *of_transactions(transactions, places), *of_strangers(transactions, places)]
    return [*found, *of_offsets(transactions, offsets, places), *(it for part in PARTS for it in of_log(part, logs[part]))]
