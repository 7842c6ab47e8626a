"""Legal orders, by their definition alone (docs/RULES.md)."""

from .records import LOAD, STORE


def values_hold(records, order):
    """Whether each load has the value of the last store before it to its address, or 0."""
    memory = {}
    for number in order:
        record = records[number - 1]
        if record.kind == LOAD and record.value != memory.get(record.address, 0):
            return False
        if record.kind == STORE:
            memory[record.address] = record.value
    return True


def ordered_pairs(records, setting):
    """All pairs of records that the model or the clock orders."""
    numbers = range(1, len(records) + 1)
    return [(one, other) for one in numbers for other in numbers if one != other and setting.orders(records, one, other)]


def keeps(pairs, order):
    """Whether the first of each pair comes before the second."""
    places = {number: place for place, number in enumerate(order)}
    return all(places[one] < places[other] for one, other in pairs)


def is_legal(records, setting, order):
    numbers = list(range(1, len(records) + 1))
    return sorted(order) == numbers and keeps(ordered_pairs(records, setting), order) and values_hold(records, order)
