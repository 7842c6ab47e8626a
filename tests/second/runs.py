"""Seeded runs: legal ones, broken ones, and ones without any plan, as records and a setting."""

from typing import NamedTuple

from .fields import run_bytes
from .records import FENCE, LOAD, READINGS_END, STORE, Record
from .settings import GLOBAL, GODSON, NONE, SC, Setting


class Run(NamedTuple):
    processors: int
    setting: Setting
    records: list
    order: list     # an order that is legal under the setting it was made in, None where none is known

    def data(self):
        return run_bytes(self.processors, self.setting, self.records)


def some_addresses(rng, count):
    """Different addresses, the smallest and the largest now and then among them."""
    pool = [0, 2 ** 32 - 1] if rng.random() < 0.2 else []
    while len(pool) < count:
        pool = list(dict.fromkeys(pool + [16 * rng.randrange(1, 2 ** 28 if rng.random() < 0.1 else 16)]))
    return pool[:count]


def some_operations(rng, size, processors, addresses):
    """Operations in the order of admission: processor, kind and address."""
    fences, loads = rng.choice((0, 0, 0.1, 0.3)), rng.uniform(0.2, 0.8)
    operations = []
    for _ in range(size):
        kind = FENCE if rng.random() < fences else LOAD if rng.random() < loads else STORE
        operations.append((rng.randrange(processors), kind, 0 if kind == FENCE else rng.choice(addresses)))
    return operations


def must_wait(operations, model, one, other):
    return one < other and operations[one][0] == operations[other][0] and model.orders(operations[one][1], operations[other][1])


def some_order(rng, operations, model):
    """The positions of the operations in an order that the model allows."""
    left, order = list(range(len(operations))), []
    while left:
        free = [other for other in left if not any(must_wait(operations, model, one, other) for one in left)]
        order.append(rng.choice(free))
        left.remove(order[-1])
    return order


def some_values(rng, operations, order):
    """The value of each operation when memory goes through them in this order; no two stores to an address are equal."""
    memory, values = {}, [0] * len(operations)
    for fresh, at in enumerate(order, 1):
        _, kind, address = operations[at]
        if kind == STORE:
            memory[address] = 2 ** 64 - fresh if rng.random() < 0.05 else fresh
        values[at] = 0 if kind == FENCE else memory.get(address, 0)
    return values


def some_stamps(rng, operations, order):
    """Enter and commit readings around the instant at which each operation reached memory, in program order as a run has
    them. The width of the periods ranges from none to all of the run."""
    width, gap = rng.choice((0, 1, 5, 20, 60, 10 ** 6)), rng.choice((0, 1, 4, 10))
    start = rng.choice((width, width, READINGS_END - 1 - width - gap * (len(order) + 1)))
    instants = {at: start + gap * position for position, at in enumerate(order)}
    stamps, least = [], {}
    for at in reversed(range(len(operations))):
        processor = operations[at][0]
        enter = min(instants[at] - rng.randint(0, width), least.get(processor, READINGS_END))
        least[processor] = enter
        stamps.append((enter, instants[at] + rng.randint(0, width)))
    return stamps[::-1]


def simulated(rng, size, processors, model, clock=GLOBAL):
    """A run that has a legal order under this model: a memory was taken through it."""
    operations = some_operations(rng, size, processors, some_addresses(rng, rng.randint(1, 4)))
    order = some_order(rng, operations, model)
    values, stamps = some_values(rng, operations, order), some_stamps(rng, operations, order)
    records = [Record(*operation, value, *stamp) for operation, value, stamp in zip(operations, values, stamps)]
    return Run(processors, Setting(model, clock), records, [at + 1 for at in order])


def legal(rng, size, processors):
    return simulated(rng, size, processors, rng.choice((SC, GODSON)))


def weak(rng, size, processors):
    """Legal under Godson, and marked as SC."""
    run = simulated(rng, size, processors, GODSON)
    return run._replace(setting=Setting(SC, GLOBAL), order=None)


def at_random(rng, size, processors):
    """No plan: loads of any value that is stored, or of 0, all periods alike or of any width."""
    operations = some_operations(rng, size, processors, some_addresses(rng, rng.choice((1, 1, 2, 3))))
    values = {at: at + 1 for at, operation in enumerate(operations) if operation[1] == STORE}
    wide, records = rng.random() < 0.7, []
    for at, (processor, kind, address) in enumerate(operations):
        stored = [values[other] for other in values if operations[other][2] == address]
        loaded = rng.choice(stored) if kind == LOAD and stored and rng.random() < 0.8 else 0
        value = values.get(at, loaded)
        records.append(Record(processor, kind, address, value, 10 if wide else 10 + at, 90 if wide else 20 + at + rng.randrange(40)))
    return Run(processors, Setting(rng.choice((SC, GODSON)), GLOBAL), records, None)


def with_values(run, changes):
    """The run with other values at some positions."""
    records = [record._replace(value=changes.get(at, record.value)) for at, record in enumerate(run.records)]
    return run._replace(records=records, order=None)


def stale(rng, run):
    """A load finds another value that its address held, or 0."""
    loads = [at for at, record in enumerate(run.records) if record.kind == LOAD]
    if not loads:
        return run
    at = rng.choice(loads)
    held = [0] + [other.value for other in run.records if other.kind == STORE and other.address == run.records[at].address]
    return with_values(run, {at: rng.choice(held)})


def swapped(rng, run):
    """Two loads, or two stores, of one address have each other's value."""
    touching = [at for at, record in enumerate(run.records) if record.kind != FENCE]
    if not touching:
        return run
    one = rng.choice(touching)
    like = [at for at in touching if run.records[at][1:3] == run.records[one][1:3]]
    other = rng.choice(like)
    return with_values(run, {one: run.records[other].value, other: run.records[one].value})


def orphaned(rng, run):
    """A load finds what nobody wrote."""
    loads = [at for at, record in enumerate(run.records) if record.kind == LOAD]
    return with_values(run, {rng.choice(loads): rng.choice((777, 2 ** 64 - 777))}) if loads else run


def broken(rng, size, processors):
    run = legal(rng, size, processors)
    for _ in range(rng.randint(1, 3)):
        run = rng.choices((stale, swapped, orphaned), (5, 4, 1))[0](rng, run)
    return run


def linked(rng, address):
    """Two operations that a memory takes one after the other: a store and the load that reads it, or a load of 0 and a store."""
    one, other = (STORE, address, 1), (LOAD, address, 1)
    return (one, other) if rng.random() < 0.5 else ((LOAD, address, 0), one)


def cyclic(rng, size, processors):
    """Processors in a ring, each with two operations, between two of them a fence now and then: the second comes before the
    first of the next processor. Where the model orders all of the pairs, each comes before itself."""
    ring = max(2, min(size // 2, processors, 6))
    links = [linked(rng, 16 * (at + 1)) for at in range(ring)]
    own = [[links[at - 1][1]] + [(FENCE, 0, 0)] * (rng.random() < 0.3) + [links[at][0]] for at in range(ring)]
    turns = [at for at in range(ring) for _ in own[at]]
    rng.shuffle(turns)
    records = [Record(at, *own[at].pop(0), 10, 90) for at in turns]
    return Run(ring, Setting(rng.choice((SC, SC, GODSON)), GLOBAL), records, None)


def dilemma(rng, size, processors):
    """A run that no lines decide and no order explains, its addresses and processors taken at random, with up to four
    records behind it that leave it as it is. Which of two stores to an address came first is open, and neither will do."""
    red, blue, other = rng.sample(range(16, 4096, 16), 3)
    core = [Record(0, STORE, blue, 1, 10, 30), Record(0, LOAD, red, 1, 10, 90), Record(0, LOAD, blue, 1, 20, 90),
            Record(1, STORE, red, 1, 10, 90), Record(1, LOAD, blue, 2, 20, 90), Record(2, STORE, blue, 2, 10, 30),
            Record(2, LOAD, red, 1, 10, 90), Record(3, STORE, red, 2, 0, 10), Record(3, LOAD, red, 2, 40, 90)]
    names = rng.sample(range(max(processors, 4)), 4)
    core = [record._replace(processor=names[record.processor]) for record in core]
    behind = [Record(names[at], STORE, other, at + 1, 91, 99) for at in range(min(4, max(0, size - len(core))))]
    return Run(max(processors, 4), Setting(SC, GLOBAL), core + behind, None)


def crowded(rng, free):
    """A dilemma, and stores that may come anywhere, each on a processor of its own: too much to be gone through."""
    run = dilemma(rng, 9, 4)
    crowd = [Record(4 + at, STORE, 2 ** 20 + at, 1, 0, 99) for at in range(free)]
    return run._replace(processors=4 + free, records=run.records + crowd)


FAMILIES = (legal, weak, broken, at_random, cyclic, dilemma)
WEIGHTS = (22, 15, 27, 23, 10, 3)


def some_run(rng, size, processors):
    return rng.choices(FAMILIES, WEIGHTS)[0](rng, size, processors)


def under(run, model, clock):
    """The same records under other marks."""
    return run._replace(setting=Setting(model, clock), order=None)


def under_none(run):
    """The same records where the clock says nothing; what was legal stays so."""
    return run._replace(setting=Setting(run.setting.model, NONE))
