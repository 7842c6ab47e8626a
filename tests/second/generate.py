"""Seeded inputs of the comparison: each has a random source of its own, made of the seed, its kind and its index."""

from random import Random

from . import papers, runs, texts
from .case import FOUND, UNDECIDED, Case
from .damage import damaged_paper, damaged_run, grown, head_changed, lengthened
from .faults import Fault
from .fields import run_bytes
from .lines import TRANSITIVE
from .program import ALL_LINES
from .records import LOAD, MOST_RECORDS, Record
from .referee import marked
from .settings import GLOBAL, GODSON, SC, SETTINGS
from .truth import legal_orders

LIGHT_STEPS = 5_000
LIGHT_LINES = 3 * 10 ** 8
HEAVY_LINES = 10 ** 10
MOST_TRIED = 7      # up to so many records all orders are tried


def source(seed, kind, index):
    return Random(f"{seed} {kind} {index}")


def loaded(data):
    """The case of a run under its own marks, None where it is refused."""
    case = Case(marked(data))
    try:
        case.load(data)
    except Fault:
        return None
    return case


def weight(case):
    """How much going over records and lines the inference of a case took, roughly, for one that goes over them again and again."""
    by_rule_7 = sum(line.rule == TRANSITIVE for line in case.lines.listed)
    return len(case.records) ** 3 * len(case.lines.listed) * by_rule_7


def is_light(data):
    """Whether the programs answer these bytes soon."""
    case = loaded(data)
    if case is None or case.verdict != UNDECIDED:
        return True
    case.infer(ALL_LINES)
    if case.verdict == UNDECIDED and weight(case) < LIGHT_LINES:
        case.search(LIGHT_STEPS)
        return case.verdict != UNDECIDED
    return weight(case) < LIGHT_LINES


def some_size(rng, index):
    """Each size up to 64 in turn at every fifth input, and small ones at the others."""
    return index // 5 % (MOST_RECORDS + 1) if index % 5 == 0 else rng.choice((rng.randint(0, 8), rng.randint(3, 16)))


def some_input(rng, index):
    """The bytes of a run, as made, under other marks, damaged or grown."""
    data = runs.some_run(rng, some_size(rng, index), 1 + index % 16).data()
    kind = rng.random()
    if kind < 0.55:
        return data
    if kind < 0.62:
        return head_changed(rng, data)
    if kind < 0.95:
        return damaged_run(rng, data)
    if kind < 0.98:
        return grown(rng, data)
    return lengthened(rng, data, rng.choice((4_095, 4_096, 4_097, 5_000)))


def light(make):
    """The first bytes made that are light."""
    data = make()
    while not is_light(data):
        data = make()
    return data


def heavy_lines(rng):
    """A run of many records from which many lines follow."""
    while True:
        case = loaded(runs.legal(rng, rng.randint(40, 48), rng.randint(4, 16)).data())
        case.infer(ALL_LINES)
        if weight(case) > HEAVY_LINES:
            return run_bytes(case.processors, case.setting, case.records)


def plain_run(count, model):
    """So many loads of 0, all in one processor's program order."""
    return runs.Run(1, runs.Setting(model, GLOBAL), [Record(0, LOAD, 16, 0, 10, 10)] * count, None)


def fixed_inputs():
    """Inputs at limits that are not left to chance."""
    full, over = plain_run(64, GODSON).data(), plain_run(65, GODSON).data()
    strange = over[:-33] + bytes([9, 9]) + over[-31:]   # a 65th record on no processor of the run and of no kind
    ring = papers.ring().data()
    return [b"", b"\x01", full[:6], full, over, strange, full[:-3], full + b"\0", full + bytes(4_096 - len(full)), full + bytes(4_097 - len(full)),
            plain_run(123, GODSON).data(), plain_run(124, GODSON).data(), plain_run(200, SC).data(), ring, bytes(4_096), bytes(5_000)]


FIXED_INPUTS = fixed_inputs()
CROWD_AT, HEAVY_AT = 500, 1_600    # each so many inputs one takes long


def program_input(rng, index):
    """The fixed inputs first, then light ones, and a few that take long."""
    if index < len(FIXED_INPUTS):
        return FIXED_INPUTS[index]
    if index % HEAVY_AT == HEAVY_AT - 1:
        return heavy_lines(rng)
    if index % CROWD_AT == CROWD_AT - 1:
        return runs.crowded(rng, 7 - index // CROWD_AT % 6).data()
    return light(lambda: some_input(rng, index))


def written_paper(rng, run, case):
    return case.write_paper(2 ** 15) if case.verdict in (1, 2, 3) else paper_of_another(rng, run, case)


def any_legal_order(rng, run):
    """An order that is known or tried out; the order of admission where there is none."""
    if run.order is not None and rng.random() < 0.7:
        return run.order
    orders = legal_orders(run.records, run.setting) if len(run.records) <= 5 else []
    return rng.choice(orders) if orders else list(range(1, len(run.records) + 1))


def paper_of_another(rng, run, case):
    """A paper by another hand, of this run."""
    kind = rng.random()
    if kind < 0.2:
        return papers.paper_of_order(run, any_legal_order(rng, run))
    if kind < 0.4 and len(run.records) <= 8:
        return papers.lines_of_another(rng, run)
    if kind < 0.75:
        return papers.lines_moved(rng, run, case.lines.listed)
    if kind < 0.85:
        return papers.order_moved(rng, run, any_legal_order(rng, run))
    return papers.any_orphan(rng, run)


def finished(run, lines=ALL_LINES, steps=LIGHT_STEPS):
    """The case of a run, inferred up to so many lines and searched so many steps."""
    case = Case(run.setting)
    case.load(run.data())
    if case.verdict == UNDECIDED:
        case.infer(lines)
    if case.verdict == UNDECIDED:
        case.search(steps)
    return case


def lawful(make):
    """The first run made that loads."""
    while True:
        run = make()
        if loaded(run.data()) is not None:
            return run


def some_pair(rng, index):
    """A run and a paper: as written, by another hand, damaged, or of another run."""
    size = rng.choice((rng.randint(0, 8), rng.randint(0, 8), rng.randint(0, 20), index % 65))
    run = lawful(lambda: runs.some_run(rng, size, 1 + index % 16))
    run = runs.under_none(run) if rng.random() < 0.25 else run
    case, kind = finished(run), rng.random()
    paper = written_paper(rng, run, case) if rng.random() < 0.5 else paper_of_another(rng, run, case)
    if kind < 0.5:
        return run.data(), paper
    if kind < 0.75:
        return run.data(), damaged_paper(rng, paper)
    if kind < 0.85:
        return run.data(), head_changed(rng, paper)
    if kind < 0.95:
        return damaged_run(rng, run.data()), paper
    return rng.choice((run.data(), grown(rng, run.data()))), lengthened(rng, paper, rng.choice((65_535, 65_536, 65_537, 70_000)))


def fixed_pairs():
    """Pairs at limits that are not left to chance: 4,032 lines, one more, and one more that is cut or unfounded."""
    ring, lines = papers.ring(), papers.round_the_ring()
    whole, more = papers.paper_of_lines(ring, lines), papers.paper_of_lines(ring, lines + lines[:1])
    far = papers.paper_of_lines(ring, lines + [papers.Line(0, 0, 0, 0)] * 6_000)
    empty = plain_run(0, SC)
    return [(ring.data(), whole), (ring.data(), more), (ring.data(), far), (ring.data(), more[:28_237]), (ring.data(), whole + b"\0"),
            (ring.data(), papers.paper_of_lines(ring, lines[:-1])), (empty.data(), papers.paper_of_order(empty, [])),
            (empty.data(), papers.paper_of_lines(empty, [])), (empty.data(), papers.paper_of_orphan(empty, 0)),
            (b"", whole), (ring.data(), b""), (b"", b""), (plain_run(2_000, GODSON).data(), whole)]


FIXED_PAIRS = fixed_pairs()


def pair(rng, index):
    return FIXED_PAIRS[index] if index < len(FIXED_PAIRS) else some_pair(rng, index)


def small_run(rng, index):
    """A run that loads, of 0 to 7 records in turn, every other one without a legal order where such are found soon; and now and
    then a dilemma of 9."""
    if index % 50 == 49:
        return runs.dilemma(rng, 9, 4)
    size, tries = index % (MOST_TRIED + 1), 30 if rng.random() < 0.5 else 1
    family = rng.choices((runs.legal, runs.weak, runs.broken, runs.at_random, runs.cyclic), (1, 1, 3, 3, 1))[0]
    made = [lawful(lambda: family(rng, size, rng.randint(2, 4)))]
    while len(made) < tries and finished(made[-1]).verdict == FOUND:
        made.append(lawful(lambda: family(rng, size, rng.randint(2, 4))))
    return made[-1]


def logged_run(rng, index):
    """A run of any size in any setting, some of whose accesses may have taken place at any time."""
    run = runs.some_run(rng, some_size(rng, index), 1 + index % 16)
    return texts.timeless(rng, runs.under(run, *rng.choice(SETTINGS)))


def run_to_print(rng, index):
    """The bytes of a run, as made, damaged or grown."""
    data, kind = logged_run(rng, index).data(), rng.random()
    if kind < 0.4:
        return data
    if kind < 0.5:
        return head_changed(rng, data)
    return damaged_run(rng, data) if kind < 0.93 else grown(rng, data)


def fixed_logs():
    """Texts and runs at limits that are not left to chance, the runs under both clocks."""
    printed = [data[:5] + clock + data[6:] if len(data) > 5 else data for data in FIXED_INPUTS for clock in (b"\1", b"\3")]
    return [("assemble", text) for text in texts.FIXED_TEXTS] + [("disassemble", data) for data in printed]


FIXED_LOGS = fixed_logs()


def log_input(rng, index):
    """A program and its input: the fixed ones first, then others, one in five of them for disassemble."""
    if index < len(FIXED_LOGS):
        return FIXED_LOGS[index]
    if index % 5 == 4:
        return "disassemble", run_to_print(rng, index // 5)
    return "assemble", texts.text_of(rng, runs.under(runs.some_run(rng, some_size(rng, index // 5), 1 + index % 16), *rng.choice(SETTINGS)))
