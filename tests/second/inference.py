"""The next line: the least that is founded (docs/INFERENCE.md)."""

from .lines import CLOCK, COHERENCE, FROM_READ, INITIAL_READ, TRANSITIVE, Line


def lowest(bits):
    """The number of the lowest bit."""
    return (bits & -bits).bit_length() - 1


def each_bit(bits):
    while bits:
        yield lowest(bits)
        bits &= bits - 1


class Inference:
    """Finds next lines of a list. Which lines rules 1 to 6 could give, and the pair that rules 5 and 6 rest on, is a matter
    of the records alone: they are looked up once for as many records as there are, and stand in their order."""

    def __init__(self, lines):
        self.lines = lines
        self.known = None       # the number of records that the two tables are of
        self.plain = []         # the lines by rules 1 to 4
        self.resting = []       # the lines by rules 5 and 6, each with the pair that must be listed

    def look_up(self):
        if self.known == len(self.lines.records):
            return
        self.known = len(self.lines.records)
        self.plain = self.plain_lines()
        self.resting = sorted(entry for load in self.lines.numbers() for entry in self.resting_on(load))

    def plain_lines(self):
        """All lines that follow by rules 1 to 4, in order: a line is as it sorts."""
        lines, numbers = self.lines, self.lines.numbers()
        return [line for rule in range(CLOCK, INITIAL_READ + 1) for first in numbers for second in numbers
                if first != second and lines.RULES[rule](lines, line := Line(rule, first, second, 0))]

    def resting_on(self, load):
        """The lines by rules 5 and 6 that rest on what a load reads."""
        store, address = self.lines.store_of(load), self.lines.record(load).address
        if store is None:
            return
        for other in self.lines.numbers():
            if other != store and self.lines.is_store_to(other, address):
                yield Line(COHERENCE, other, store, load), (other, load)
                yield Line(FROM_READ, load, other, 0), (store, other)

    def is_new(self, line):
        return not self.lines.is_listed(line.first, line.second)

    def next_plain(self):
        """What is listed stays listed, so lines whose pair is listed are dropped for good."""
        while self.plain and not self.is_new(self.plain[0]):
            self.plain.pop(0)
        return self.plain[0] if self.plain else None

    def next_resting(self):
        return next((line for line, pair in self.resting if self.lines.is_listed(*pair) and self.is_new(line)), None)

    def beyond(self, first):
        """The set of records that come after one that comes after the first, without those listed and itself."""
        after, found = self.lines.after, 0
        for third in each_bit(after[first]):
            found |= after[third]
        return found & ~after[first] & ~(1 << first)

    def next_transitive(self):
        for first in self.lines.numbers():
            new = self.beyond(first)
            if new:
                second = lowest(new)
                return Line(TRANSITIVE, first, second, lowest(self.lines.after[first] & self.lines.before[second]))
        return None

    def next_line(self):
        """The next line, None where no line with a new pair follows."""
        self.look_up()
        return self.next_plain() or self.next_resting() or self.next_transitive()

    def infer(self, k):
        """Lists up to k next lines, up to one that is opposed to a listed one; answers how many."""
        for count in range(k):
            line = self.next_line()
            if line is None:
                return count
            self.lines.append(line)
            if self.lines.is_opposed():
                return count + 1
        return k
