"""The runs that bench/run measures, made anew each time from fixed seeds. docs/FORMAT.md has their bytes."""

import struct

LOAD, STORE = 1, 2
SC, GLOBAL = 1, 1

# The dilemma of examples/README.md: no order is legal, and no lines oppose each other. Processor, kind, address, value, enter, commit.
DILEMMA = [
    (0, STORE, 0x20, 1, 10, 30),
    (0, LOAD, 0x10, 1, 10, 90),
    (0, LOAD, 0x20, 1, 20, 90),
    (1, STORE, 0x10, 1, 10, 90),
    (1, LOAD, 0x20, 2, 20, 90),
    (2, STORE, 0x20, 2, 10, 30),
    (2, LOAD, 0x10, 1, 10, 90),
    (3, STORE, 0x10, 2, 0, 10),
    (3, LOAD, 0x10, 2, 40, 90),
]

# How a run of so many records is simulated: processors, addresses, and how far at most a pending period goes on either side.
SHAPES = {8: (3, 2, 100), 16: (4, 3, 200), 32: (6, 4, 200), 64: (8, 4, 60)}

# Seeds of long inferences and long searches, of about 80 that were tried for each size (15 for 64).
LEGAL_SEEDS = {8: 16, 16: 45, 32: 70, 64: 7}
STALE_SEEDS = {8: 68, 16: 78, 32: 21, 64: 5}


class Chance:
    """Numbers by a linear congruence, the same on every machine."""

    def __init__(self, seed):
        self.state = seed

    def below(self, limit):
        self.state = (self.state * 6364136223846793005 + 1442695040888963407) % 2**64
        return (self.state >> 32) % limit


def run_bytes(records):
    """The run under SC and Global, with the records of each processor together."""
    processors = 1 + max(record[0] for record in records)
    fields = [struct.pack(">BHBBB", 1, 3, processors, SC, GLOBAL)]
    fields += [struct.pack(">BHBBIQQQ", 2, 30, *record) for record in sorted(records, key=lambda record: record[0])]
    return b"".join(fields) + struct.pack(">BH", 3, 0)


def simulated(size, seed):
    """What one memory does, an operation each 10 readings. Each store writes a value of its own, each load reads what the address holds."""
    processors, addresses, width = SHAPES[size]
    chance = Chance(seed)
    memory, enters, records = {}, {}, []
    for number in range(1, size + 1):
        time = 10000 + 10 * number
        processor, address = chance.below(processors), 0x10 * (1 + chance.below(addresses))
        enter = max(enters.get(processor, 0), time - chance.below(width))
        commit = time + chance.below(width)
        kind = STORE if chance.below(2) == 0 else LOAD
        if kind == STORE:
            memory[address] = number
        enters[processor] = enter
        records.append((processor, kind, address, memory.get(address, 0), enter, commit))
    return records


def made_stale(records):
    """The last load that could read the store before the one that it reads does so."""
    stored, stale = {}, None
    for place, (_, kind, address, value, _, _) in enumerate(records):
        values = stored.setdefault(address, [])
        if kind == STORE:
            values.append(value)
        elif len(values) > 1:
            stale = place, values[-2]
    place, value = stale
    processor, kind, address, _, enter, commit = records[place]
    return records[:place] + [(processor, kind, address, value, enter, commit)] + records[place + 1 :]


def crowded(size):
    """The dilemma, and stores beside it that may come anywhere, each to an address of its own."""
    beside = [(4 + i % 12, STORE, 0x100 + 0x10 * i, 1, 10, 90) for i in range(size - len(DILEMMA))]
    return DILEMMA + beside


def all_runs():
    """Each run with its kind, its size and the verdict that is expected of it."""
    for size, seed in STALE_SEEDS.items():
        yield "stale", size, 2, run_bytes(made_stale(simulated(size, seed)))
    for size, seed in LEGAL_SEEDS.items():
        yield "legal", size, 1, run_bytes(simulated(size, seed))
    # of 9 records it is the dilemma alone, which the search goes through; no run of 8 stays undecided (docs/SEARCH.md)
    for size, verdict in ((9, 4), (16, 0), (32, 0), (64, 0)):
        yield "crowd", size, verdict, run_bytes(crowded(size))
