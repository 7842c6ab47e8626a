"""The program zielwart (docs/FORMAT.md)."""

from .case import EXHAUSTED, UNDECIDED, Case
from .faults import Fault
from .fields import notice_bytes
from .settings import GLOBAL, GODSON, SC, Setting

READ = 4096
ALL_LINES = 2 ** 64 - 1
STEPS = 1_000_000
ROOM = 28_246


def examine(data):
    """The case of a run as the program leaves it; a fault where the run is refused."""
    run = data[:READ]
    case = Case(Setting(GODSON if run[4:5] == b"\x03" else SC, GLOBAL))
    case.load(run)
    decide(case)
    return case


def decide(case):
    """Infers and searches where nothing has decided the case before."""
    if case.verdict == UNDECIDED:
        case.infer(ALL_LINES)
    if case.verdict == UNDECIDED:
        case.search(STEPS)


def written(case):
    slip = case.write_slip(ROOM)
    return slip if case.verdict in (UNDECIDED, EXHAUSTED) else slip + case.write_paper(ROOM - len(slip))


def zielwart(data):
    """The output and the exit status of the program."""
    try:
        return written(examine(data)), 0
    except Fault as fault:
        return notice_bytes(fault), 1
