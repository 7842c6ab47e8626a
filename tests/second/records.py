"""Records, their admission, reads-from and orphans (docs/RULES.md). Records are numbered from 1."""

from typing import NamedTuple

from . import faults

LOAD, STORE, FENCE = 1, 2, 3
MOST_RECORDS = 64
MOST_PROCESSORS = 16
READINGS_END = 2 ** 62


class Record(NamedTuple):
    processor: int
    kind: int
    address: int
    value: int
    enter: int
    commit: int


def is_blank(record):
    """A store of 0, or a fence that names an address or a value."""
    if record.kind == STORE:
        return record.value == 0
    return record.kind == FENCE and (record.address != 0 or record.value != 0)


def last_enter(records, processor):
    """The enter reading of the processor's last record, 0 where it has none."""
    return next((record.enter for record in reversed(records) if record.processor == processor), 0)


def is_backward(records, record):
    return record.commit < record.enter or record.enter < last_enter(records, record.processor)


def is_twin(records, record):
    return record.kind == STORE and any(
        other.kind == STORE and other.address == record.address and other.value == record.value for other in records)


def admission_fault(records, processors, record):
    """The number of the first refusal, 6 to 12, that keeps the record out; None where it is admitted."""
    checks = (
        (faults.FULL, lambda: len(records) >= MOST_RECORDS),
        (faults.STRANGER, lambda: record.processor >= processors),
        (faults.KIND, lambda: record.kind not in (LOAD, STORE, FENCE)),
        (faults.BLANK, lambda: is_blank(record)),
        (faults.RANGE, lambda: record.enter >= READINGS_END or record.commit >= READINGS_END),
        (faults.BACKWARD, lambda: is_backward(records, record)),
        (faults.TWIN, lambda: is_twin(records, record)),
    )
    return next((number for number, applies in checks if applies()), None)


def store_read(records, record):
    """The number of the store that the record reads; None where it is no load, loads 0, or no store has its value."""
    if record.kind != LOAD or record.value == 0:
        return None
    return next((number for number, other in enumerate(records, 1)
                 if other.kind == STORE and other.address == record.address and other.value == record.value), None)


def is_orphan(records, number):
    """Whether there is a record of this number that is a load of what nobody wrote."""
    if not 1 <= number <= len(records):
        return False
    record = records[number - 1]
    return record.kind == LOAD and record.value != 0 and store_read(records, record) is None


def smallest_orphan(records):
    return next((number for number in range(1, len(records) + 1) if is_orphan(records, number)), None)
