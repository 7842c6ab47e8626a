"""Random and damaged inputs: runs, papers and lists of calls. Each is a function of a random.Random, so that a seed says all of them."""

import struct
from pathlib import Path

from second.fields import field, record_content
from second.records import Record

EXAMPLES = [path.read_bytes() for path in sorted(Path(__file__).resolve().parents[2].glob("examples/*.run"))]
MOST = 2**64 - 1
READINGS = 2**62


def run_bytes(processors, marks, entries):
    records = b"".join(field(0x02, record_content(entry)) for entry in entries)
    return field(0x01, bytes([processors, *marks])) + records + field(0x03, b"")


def some_bytes(rng, most):
    return rng.randbytes(rng.choice((0, 1, 2, 3, rng.randint(4, 40), rng.randint(0, most))))


def size(rng):
    """How many records: mostly few, since inference and search on many can take a minute."""
    return rng.choices((rng.randint(0, 10), rng.randint(11, 18), rng.randint(19, 32), rng.randint(33, 64)), (86, 11, 2.7, 0.3))[0]


def entries(rng, count, processors):
    """What a memory might have logged, one operation after the other; some loads have another value than the last: an older one, 0, or any."""
    wrong, addresses = rng.choice((0, 0.1, 0.3, 0.5)), rng.randint(1, 4)
    width = rng.choice((0, 3, 20, 10**6)) if count <= 24 else rng.choice((0, 3))
    written = {16 * n: [0] for n in range(1, addresses + 1)}
    entered, time, logged = [0] * processors, 0, []
    for number in range(1, count + 1):
        processor, kind, address = rng.randrange(processors), rng.choice((1, 1, 2, 2, 3)), rng.choice(list(written))
        time += rng.randint(1, 4)
        enter = entered[processor] = max(entered[processor], time - rng.randint(0, width))
        values = written[address]
        if kind == 2:
            values.append(number)
        value = values[-1] if kind == 2 or rng.random() >= wrong else rng.choice((*values, *values, 0, rng.randint(0, count)))
        address, value = (0, 0) if kind == 3 else (address, value)
        logged.append(Record(processor, kind, address, value, enter, max(enter, time + rng.randint(0, width))))
    return logged


def run(rng):
    processors = rng.choice((1, 2, 2, 3, 4, 16))
    marks = (rng.choice((1, 1, 3)), rng.choices((1, 3), (9, 1))[0])
    return run_bytes(processors, marks, entries(rng, size(rng), processors))


def example(rng):
    """One of the repository's examples, among which each verdict is."""
    return rng.choice(EXAMPLES)


def number(rng):
    return rng.choice((0, 1, 255, rng.randrange(256), rng.randrange(256)))


def damaged(rng, data, doubling=True):
    """The bytes with one to five things done to them; without doubling, none stands twice that stood once."""
    data = bytearray(data)
    for _ in range(rng.choice((1, 1, 1, 2, 5))):
        at = rng.randint(0, len(data))
        until = min(len(data), at + rng.choice((1, 1, 2, 3, 7, 33)))
        kind = rng.choice(("change", "change", "change", "insert", "remove", "double", "cut", "append"))
        if kind == "change" and at < until:
            data[at] = number(rng)
        elif kind == "insert":
            data[at:at] = bytes(number(rng) for _ in range(rng.randint(1, 3)))
        elif kind == "remove":
            del data[at:until]
        elif kind == "double" and doubling:
            data[at:at] = data[at:until]
        elif kind == "cut":
            del data[at:]
        elif kind == "append":
            data += rng.randbytes(rng.randint(1, 5))
    return bytes(data)


def long_run(rng):
    """Bytes around and above the number that count."""
    head = rng.choice((run(rng), b"", run_bytes(1, (1, 1), entries(rng, 65, 1))))
    return head + bytes(rng.choice((0, 2))) * rng.choice((4096, 4096 - len(head), 70000, 4097))


def paper(rng, count):
    """Fields of a paper, whatever they say of a run of so many records."""
    verdict = rng.choice((1, 2, 3, 4, 0))
    fields = [field(0x10, bytes([verdict, rng.choice((1, 3)), 1, count]))]
    if verdict == 1:
        fields.append(field(0x12, bytes(rng.sample(range(1, count + 1), count))))
    if verdict == 2:
        fields += [field(0x11, bytes([rng.randint(1, 7), *(rng.randint(0, count) for _ in range(3))])) for _ in range(rng.randint(0, 12))]
    if verdict == 3:
        fields.append(field(0x13, bytes([rng.randint(0, count)])))
    return b"".join(fields) + field(0x1F, b"")


def steps(rng, bold):
    """How many lines or steps; boldly, also so many that only a small case ends."""
    return rng.choice((0, 1, 2, rng.randint(3, 40), 1000, READINGS + 1, MOST, *((READINGS, READINGS - 1) if bold else ())))


def admissions(rng, count, processors):
    return [b"\x02" + record_content(entry) for entry in entries(rng, count, processors)]


def closing(rng, bold):
    """Calls that may stand anywhere."""
    lent = struct.pack(">H", rng.choice((0, 11, 12, 13, 14, 17, 52, 141, rng.randint(0, 400))))
    some = small_run(rng)
    return rng.choice((
        b"\x03" + struct.pack(">Q", steps(rng, True)),
        b"\x05" + struct.pack(">Q", steps(rng, bold)),
        b"\x04",
        b"\x07" + lent,
        b"\x08" + lent,
        b"\x09" + lent,
        b"\x06" + struct.pack(">H", len(some)) + some,
        b"\x01" + bytes([rng.choice((0, 1, 2, 4, 16, 17))]),
    ))


def small_run(rng):
    processors = rng.randint(1, 3)
    whole = run_bytes(processors, (rng.choice((1, 3)), rng.choice((1, 3))), entries(rng, rng.randint(0, 5), processors))
    return whole if rng.random() < 0.7 else damaged(rng, whole, doubling=False)


def calls(rng, bold):
    """Two marks and calls. Boldly: few records, so that any number of steps ends."""
    processors = rng.randint(1, 4)
    admitted = admissions(rng, rng.randint(0, 6) if bold else min(size(rng), 16), processors)
    between = [[closing(rng, bold)] if rng.random() < 0.1 else [] for _ in admitted]
    history = [call for pair in zip(admitted, between) for call in (pair[0], *pair[1])]
    behind = [b"\x04"] + [closing(rng, bold) for _ in range(rng.randint(0, 10))]
    return bytes([rng.choice((1, 3)), rng.choice((1, 3)), 1, processors]) + b"".join(history + behind)


def long_calls(rng):
    """Many calls, or one loading, around the most bytes that there may be: 65,536."""
    size = rng.choice((65_535, 65_536, 65_537, 70_000))
    if rng.random() < 0.5:
        return b"\1\1" + b"\4" * rng.choice((100, 300)) + bytes(size - 302)
    some = small_run(rng)
    length = min(size - 5, 65_531)
    return (b"\1\1\6" + struct.pack(">H", length) + some + bytes(length - len(some))).ljust(size, b"\4")
