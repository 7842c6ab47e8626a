"""What is true of a small run: all orders are tried, by the definition of a legal order alone (docs/RULES.md)."""

from itertools import permutations
from typing import NamedTuple

from .case import EXHAUSTED, FOUND, OPPOSED, ORPHANED
from .fields import LINE, ORDER, ORPHAN, PAPER_END, PAPER_HEAD, SLIP, line_of, read_field
from .orders import keeps, ordered_pairs, values_hold
from .records import is_orphan


class Claims(NamedTuple):
    """What is said of a run: a verdict, how many steps were made, an order, lines and an orphan, as far as there are."""
    verdict: int
    steps: int
    order: tuple = ()
    lines: tuple = ()
    orphan: int = 0


def claims_of(case):
    order = tuple(case.walk.placed) if case.verdict == FOUND else ()
    return Claims(case.verdict, case.total, order, tuple(case.lines.listed), case.orphan() or 0)


def body_fields(paper, count):
    """The tags and contents behind the head of a paper of so many records."""
    lengths = {PAPER_HEAD: 4, LINE: 4, ORDER: count, ORPHAN: 1, PAPER_END: 0}
    _, _, at = read_field(paper, 0, lengths, 0)
    while at < len(paper):
        tag, content, at = read_field(paper, at, lengths, 0)
        yield tag, content


def claims_in(answer, count):
    """What the bytes of an answer to a run of so many records say."""
    _, slip, at = read_field(answer, 0, {SLIP: 9}, 0)
    body = list(body_fields(answer[at:], count)) if len(answer) > at else []
    order = next((tuple(content) for tag, content in body if tag == ORDER), ())
    orphan = next((content[0] for tag, content in body if tag == ORPHAN), 0)
    lines = tuple(line_of(content) for tag, content in body if tag == LINE)
    return Claims(slip[0], int.from_bytes(slip[1:], "big"), order, lines, orphan)


def legal_orders(records, setting):
    """All legal orders, the smallest first."""
    pairs = ordered_pairs(records, setting)
    return [order for order in permutations(range(1, len(records) + 1)) if values_hold(records, order) and keeps(pairs, order)]


def lists(count):
    """How many lists of different ones of so many records there are."""
    return 1 if count == 0 else 1 + count * lists(count - 1)


def holds(line, orders):
    return all(order.index(line.first) < order.index(line.second) for order in orders)


def untrue(records, claims, legal):
    """What is claimed of the records and is not so, in words; `legal` has all legal orders."""
    verdict = claims.verdict
    checks = (
        ("the order is not the smallest legal one", verdict != FOUND or claims.order == next(iter(legal), None)),
        ("there is a legal order", verdict not in (OPPOSED, ORPHANED, EXHAUSTED) or not legal),
        ("the record named is no orphan", verdict != ORPHANED or is_orphan(records, claims.orphan)),
        ("a line does not hold in each legal order", all(holds(line, legal) for line in claims.lines)),
        ("there are more steps than are enough", claims.steps < 2 * lists(len(records))),
    )
    return [words for words, so in checks if not so]
