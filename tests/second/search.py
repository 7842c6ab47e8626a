"""The search for a legal order, step by step (docs/SEARCH.md)."""

from .records import LOAD, STORE

ORDER, EXHAUSTED = 1, 4


class Search:
    """Where a search stands: the placed records and the mark, 0 where there is none. What must come before each record,
    as a set of bits, and the values that the addresses have held, the last one last, are kept at hand beside."""

    def __init__(self, setting, records):
        self.setting = setting
        self.records = records
        self.placed = []
        self.mark = 0
        self.placed_bits = 0
        self.waits = [0]
        self.held = {record.address: [0] for record in records}

    def must_come_before(self, lines, one, other):
        return self.setting.orders(self.records, one, other) or lines.is_listed(one, other)

    def wait_for(self, lines):
        """Notes for each record which others must come before it, by model, clock and the lines that are listed now."""
        numbers = range(1, len(self.records) + 1)
        self.waits = [0] + [sum(1 << one for one in numbers if one != other and self.must_come_before(lines, one, other))
                            for other in numbers]

    def may_be_placed(self, number):
        if self.placed_bits >> number & 1 or self.waits[number] & ~self.placed_bits:
            return False
        record = self.records[number - 1]
        return record.kind != LOAD or record.value == self.held[record.address][-1]

    def place(self, number):
        self.placed.append(number)
        self.placed_bits |= 1 << number
        self.mark = 0
        record = self.records[number - 1]
        if record.kind == STORE:
            self.held[record.address].append(record.value)

    def take_back(self):
        self.mark = self.placed.pop()
        self.placed_bits &= ~(1 << self.mark)
        record = self.records[self.mark - 1]
        if record.kind == STORE:
            self.held[record.address].pop()

    def step(self):
        """Makes a step, and answers the verdict that it brings, or 0."""
        for number in range(self.mark + 1, len(self.records) + 1):
            if self.may_be_placed(number):
                self.place(number)
                return ORDER if len(self.placed) == len(self.records) else 0
        if not self.placed:
            return EXHAUSTED
        self.take_back()
        return 0

    def search(self, lines, k):
        """Makes up to k steps, up to one that decides; answers how many, and the verdict."""
        self.wait_for(lines)
        for count in range(k):
            verdict = self.step()
            if verdict:
                return count + 1, verdict
        return k, 0
