"""Papers of other hands: founded lines in any order, any legal order, any orphan, and conclusions that do not hold."""

from itertools import chain

from .fields import ORDER, ORPHAN, field, line_bytes, paper_bytes
from .lines import CLOCK, COHERENCE, TRANSITIVE, Line, Lines
from .records import LOAD, STORE, Record, is_orphan
from .runs import Run
from .settings import GLOBAL, SC, Setting


def paper_of_order(run, order):
    return paper_bytes(1, run.setting, len(run.records), field(ORDER, bytes(order)))


def paper_of_lines(run, lines):
    return paper_bytes(2, run.setting, len(run.records), b"".join(map(line_bytes, lines)))


def paper_of_orphan(run, number):
    return paper_bytes(3, run.setting, len(run.records), field(ORPHAN, bytes([number])))


def thirds(rule, numbers):
    return numbers if rule in (COHERENCE, TRANSITIVE) else (0,)


def possible_lines(count):
    """All lines that name records, founded or not."""
    numbers = range(1, count + 1)
    return [Line(rule, first, second, third) for rule in range(CLOCK, TRANSITIVE + 1)
            for first in numbers for second in numbers for third in thirds(rule, numbers)]


def founded_lines(rng, run, most):
    """Up to so many founded lines, one behind the other, in no order that anybody has fixed, also behind opposed ones."""
    lines, possible = Lines(run.setting, run.records), possible_lines(len(run.records))
    for line in chain.from_iterable(rng.sample(possible, len(possible)) for _ in range(4)):
        if len(lines.listed) < most and lines.is_founded(line):
            lines.append(line)
    return lines.listed


def ends_opposed(lines):
    """How many of the lines there are up to each one that is opposed to one before it."""
    pairs, ends = set(), []
    for count, line in enumerate(lines, 1):
        pairs.add((line.first, line.second))
        if (line.second, line.first) in pairs:
            ends.append(count)
    return ends


def lines_of_another(rng, run):
    """Founded lines up to one that is opposed, where there is one, or beyond it, or all of them."""
    lines = founded_lines(rng, run, rng.choice((5, 20, 100)))
    ends = ends_opposed(lines)
    if ends and rng.random() < 0.75:
        return paper_of_lines(run, lines[:rng.choice(ends)])
    return paper_of_lines(run, lines[:rng.randint(0, len(lines))])


def otherwise(rng, line, count):
    """A line said a little otherwise: another rule, another record, the two swapped, or another third."""
    other = rng.randrange(count + 2)
    return rng.choice((line._replace(rule=rng.randrange(9)), line._replace(first=other), line._replace(second=other),
                       line._replace(first=line.second, second=line.first), line._replace(third=other), line._replace(third=other)))


def lines_moved(rng, run, lines):
    """The checker's lines, one of them elsewhere, left out, said twice, or said otherwise where it stands."""
    if not lines:
        return paper_of_lines(run, [])
    at, place = rng.randrange(len(lines)), rng.randint(0, len(lines))
    one, rest = lines[at], lines[:at] + lines[at + 1:]
    changed = (rest, rest[:place] + [one] + rest[place:], lines[:place] + [one] + lines[place:])
    if rng.random() < 0.5:
        return paper_of_lines(run, rng.choice(changed))
    return paper_of_lines(run, lines[:at] + [otherwise(rng, one, len(run.records))] + lines[at + 1:])


def order_moved(rng, run, order):
    """An order with two numbers swapped, or with another number in it."""
    order = list(order) or [0]
    one, other = rng.randrange(len(order)), rng.randrange(len(order))
    if rng.random() < 0.7:
        order[one], order[other] = order[other], order[one]
    else:
        order[one] = rng.randrange(len(order) + 2)
    return paper_of_order(run, order)


def any_orphan(rng, run):
    """An orphan where there is one, mostly; any number otherwise."""
    orphans = [number for number in range(1, len(run.records) + 1) if is_orphan(run.records, number)]
    if orphans and rng.random() < 0.8:
        return paper_of_orphan(run, rng.choice(orphans))
    return paper_of_orphan(run, rng.randrange(len(run.records) + 2))


def ring():
    """64 records, each before the next by the clock, and the last before the first, which reads it."""
    records = [Record(0, LOAD, 16, 1, 0, 1)] + [Record(at % 16, STORE, 16, 64 - at, 10 * at, 10 * at + 1) for at in range(1, 64)]
    return Run(16, Setting(SC, GLOBAL), [record._replace(processor=at % 16) for at, record in enumerate(records)], None)


def round_the_ring():
    """A line for each of the 4,032 pairs of the ring's records: each step on, and then two, three and more steps, over the
    record before the last."""
    after = {at: at % 64 + 1 for at in range(1, 65)}
    lines = [Line(CLOCK, at, at + 1, 0) for at in range(1, 64)] + [Line(3, 64, 1, 0)]
    reached = dict(after)
    for _ in range(62):
        lines += [Line(TRANSITIVE, first, after[reached[first]], reached[first]) for first in reached]
        reached = {first: after[reached[first]] for first in reached}
    return lines
