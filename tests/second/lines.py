"""Lines: which follow, and lists of lines (docs/INFERENCE.md)."""

from typing import NamedTuple

from .records import LOAD, MOST_RECORDS, STORE, store_read

CLOCK, MODEL, READS_FROM, INITIAL_READ, COHERENCE, FROM_READ, TRANSITIVE = range(1, 8)


class Line(NamedTuple):
    rule: int
    first: int
    second: int
    third: int


class Lines:
    """A list of lines over records, which may grow. The listed pairs stand in two tables, as sets of bits:
    after[u] has the bit v, and before[v] the bit u, just where the pair (u, v) is listed."""

    def __init__(self, setting, records):
        self.setting = setting
        self.records = records
        self.listed = []
        self.after = [0] * (MOST_RECORDS + 1)
        self.before = [0] * (MOST_RECORDS + 1)

    def is_listed(self, first, second):
        return bool(self.after[first] >> second & 1)

    def append(self, line):
        self.listed.append(line)
        self.after[line.first] |= 1 << line.second
        self.before[line.second] |= 1 << line.first

    def is_opposed(self):
        """Whether the last line is opposed to a listed one."""
        return bool(self.listed) and self.is_listed(self.listed[-1].second, self.listed[-1].first)

    def numbers(self):
        return range(1, len(self.records) + 1)

    def record(self, number):
        return self.records[number - 1]

    def store_of(self, load):
        """The number of the store that a record reads, None where it reads none."""
        return store_read(self.records, self.record(load))

    def is_store_to(self, number, address):
        return self.record(number).kind == STORE and self.record(number).address == address

    def by_clock(self, line):
        return self.setting.clock_orders(self.records, line.first, line.second)

    def by_model(self, line):
        return self.setting.model_orders(self.records, line.first, line.second)

    def by_reads_from(self, line):
        return self.store_of(line.second) == line.first

    def by_initial_read(self, line):
        load = self.record(line.first)
        return load.kind == LOAD and load.value == 0 and self.is_store_to(line.second, load.address)

    def by_coherence(self, line):
        address = self.record(line.third).address
        return (self.store_of(line.third) == line.second and self.is_store_to(line.first, address)
                and self.is_listed(line.first, line.third))

    def by_from_read(self, line):
        store, address = self.store_of(line.first), self.record(line.first).address
        return (store is not None and line.second != store and self.is_store_to(line.second, address)
                and self.is_listed(store, line.second))

    def by_transitive(self, line):
        return self.is_listed(line.first, line.third) and self.is_listed(line.third, line.second)

    RULES = {CLOCK: by_clock, MODEL: by_model, READS_FROM: by_reads_from, INITIAL_READ: by_initial_read,
             COHERENCE: by_coherence, FROM_READ: by_from_read, TRANSITIVE: by_transitive}

    def names_records(self, line):
        """Whether the line names two different records, and a third just where its rule rests on one."""
        numbers = self.numbers()
        third_is_right = line.third in numbers if line.rule in (COHERENCE, TRANSITIVE) else line.third == 0
        return line.first in numbers and line.second in numbers and line.first != line.second and third_is_right

    def is_founded(self, line):
        """Whether the line follows from the records and the list, and its pair is new."""
        return (line.rule in self.RULES and self.names_records(line) and self.RULES[line.rule](self, line)
                and not self.is_listed(line.first, line.second))
