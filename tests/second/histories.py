"""Seeded histories of calls. A case is kept beside, so that a call can be chosen for what it meets; no call is left out because
it would be refused."""

from .calls import (ADMIT, INFER, LOAD, OPEN, SEAL, SEARCH, WRITE_PAPER, WRITE_RUN, WRITE_SLIP, Call, made)
from .case import Case
from .damage import damaged_run
from .fields import marks, record_content, record_of
from .generate import LIGHT_STEPS, light
from .program import ALL_LINES
from .records import MOST_RECORDS
from .runs import Run, at_random, broken, some_run, under
from .settings import SETTINGS

LOAD_OF_0 = record_of(bytes([0, 1]) + bytes(28))
WALKED_OUT = 7      # up to so many records any number of steps ends soon
WEIGHTS = {
    "open": {OPEN: 2, ADMIT: 60, INFER: 12, SEAL: 8, SEARCH: 4, LOAD: 3, WRITE_RUN: 4, WRITE_SLIP: 3, WRITE_PAPER: 4},
    "sealed": {OPEN: 2, ADMIT: 4, INFER: 16, SEAL: 3, SEARCH: 55, LOAD: 3, WRITE_RUN: 6, WRITE_SLIP: 6, WRITE_PAPER: 5},
    "decided": {OPEN: 14, ADMIT: 6, INFER: 8, SEAL: 6, SEARCH: 8, LOAD: 14, WRITE_RUN: 12, WRITE_SLIP: 12, WRITE_PAPER: 20},
}


class Author:
    """Writes one history."""

    def __init__(self, rng):
        self.rng = rng
        self.setting = rng.choice(SETTINGS)
        self.case = Case(self.setting)
        self.most = rng.choice((3, 5, 6, 7, 7, 12))
        self.plan()

    def plan(self):
        """A run whose records are admitted one by one, as far as the calls get."""
        size = self.rng.randint(0, self.most)
        run = self.rng.choice((some_run, some_run, broken, at_random))(self.rng, size, self.rng.randint(1, 4))
        self.run = under(run, *self.setting)
        self.left = list(self.run.records)

    def processors(self):
        self.plan()
        return self.rng.choice((self.run.processors,) * 6 + (0, 1, 16, 17, 255))

    def record(self):
        """The next record of the plan, or one that was damaged."""
        record = self.left.pop(0) if self.left else self.rng.choice(self.run.records or [LOAD_OF_0])
        if self.rng.random() < 0.85:
            return record
        data = damaged_run(self.rng, b"\x02\0\x1e" + record_content(record))
        return record_of((data[3:] + bytes(30))[:30])

    def lines(self):
        return self.rng.choice((0, 1, 1, 2, 3, 5, 10, 2 ** 64 - 1))

    def steps(self):
        """Few steps, or any number where that ends soon or is refused."""
        few = self.rng.choice((0, 1, 1, 2, 3, 5, 8, 20, 100))
        spent = 2 ** 62 - self.case.total
        if self.case.stage() == "sealed" and len(self.case.records) > WALKED_OUT:
            return self.rng.choice((few,) * 6 + (spent + 1, 2 ** 64 - 1))
        return self.rng.choice((few,) * 6 + (spent, spent + 1, 2 ** 62, 2 ** 64 - 1))

    def run_data(self):
        self.plan()
        self.left = []
        data = self.run.data()
        return damaged_run(self.rng, data) if self.rng.random() < 0.4 else data

    def room(self, opcode):
        """Just enough, one too few, some more, or none."""
        answer, _ = made(self.case, Call(opcode, 2 ** 15))
        need = int(answer.split()[2]) if answer.startswith("ok") else 12
        return self.rng.choice((need, need, need - 1, need + self.rng.randrange(9), 0, 1))

    def argument(self, opcode):
        arguments = {OPEN: self.processors, ADMIT: self.record, INFER: self.lines, SEAL: lambda: None, SEARCH: self.steps, LOAD: self.run_data}
        return arguments[opcode]() if opcode in arguments else self.room(opcode)

    def call(self):
        weights = WEIGHTS[self.case.stage()]
        opcode = self.rng.choices(list(weights), weights.values())[0]
        call = Call(opcode, self.argument(opcode))
        made(self.case, call)
        return call.data()

    def history(self):
        """The bytes of a history, which may end in no whole call."""
        data = marks(self.setting)
        if self.rng.random() < 0.9:
            opening = Call(OPEN, self.run.processors)
            made(self.case, opening)
            data += opening.data()
        data += b"".join(self.call() for _ in range(self.rng.randint(1, 60)))
        ending = self.rng.random()
        if ending < 0.02:
            return data[:self.rng.randrange(len(data))]
        return data + self.rng.choice((b"\0", b"\x0A", b"\xFF", b"\x02\0")) if ending < 0.04 else data


def full():
    """64 records that no line orders are admitted and one more is not, by calls and by loading."""
    records = [LOAD_OF_0] * 65
    run = Run(1, SETTINGS[3], records, None)
    admitted = [Call(ADMIT, record) for record in records]
    calls = admitted + [Call(INFER, 3), Call(SEAL), Call(SEARCH, 64), Call(WRITE_RUN, 2 ** 15), Call(WRITE_PAPER, 77), Call(LOAD, run.data())]
    return marks(run.setting) + b"".join(call.data() for call in calls)


def of_length(length):
    """A history of so many bytes: a loading of zeros, which is refused."""
    return b"\x01\x01" + Call(LOAD, bytes(length - 5)).data()


FIXED = (b"", b"\x01", b"\x01\x01", b"\x02\x01", b"\x01\x02", b"\x03\x03", full(), of_length(65_535), of_length(65_536), of_length(65_537))


def long(rng, index):
    """A run of any size is loaded, inferred and searched in pieces, and written."""
    data = light(lambda: under(some_run(rng, index % (MOST_RECORDS + 1), rng.randint(1, 16)), *rng.choice(SETTINGS)).data())
    pieces = [Call(INFER, 1), Call(INFER, rng.randrange(50)), Call(SEARCH, rng.randrange(9)), Call(SEARCH, rng.randrange(99))]
    rng.shuffle(pieces)
    rest = [Call(INFER, ALL_LINES), Call(SEARCH, LIGHT_STEPS), Call(WRITE_RUN, 2_121), Call(WRITE_SLIP, 12), Call(WRITE_PAPER, 30_000)]
    return data[4:6] + b"".join(call.data() for call in [Call(LOAD, data)] + pieces + rest)


def history(rng, index):
    """The fixed histories first, then others, one in ten of them a long one."""
    if index < len(FIXED):
        return FIXED[index]
    return long(rng, index // 10) if index % 10 == 9 else Author(rng).history()
