"""Seeded damage to the bytes of runs and papers."""

RUN_LIMITS = {
    "processor": (0, 1, (1, 2, 15, 16, 255)),
    "kind": (1, 2, (0, 1, 2, 3, 4, 255)),
    "address": (2, 6, (0, 1, 2 ** 32 - 1)),
    "value": (6, 14, (0, 1, 2, 2 ** 64 - 1)),
    "enter": (14, 22, (0, 1, 2 ** 62 - 1, 2 ** 62, 2 ** 64 - 1)),
    "commit": (22, 30, (0, 1, 2 ** 62 - 1, 2 ** 62, 2 ** 64 - 1)),
}


def fields_of(data):
    """The bytes cut into fields, as far as their lengths go; the last piece may be no whole field."""
    pieces, at = [], 0
    while at < len(data):
        end = at + 3 + int.from_bytes(data[at + 1:at + 3], "big")
        pieces.append(data[at:end])
        at = end
    return pieces


def byte_changed(rng, data):
    if not data:
        return data
    at = rng.randrange(len(data))
    return data[:at] + bytes([rng.choice((data[at] ^ 1 << rng.randrange(8), (data[at] + 1) % 256, rng.randrange(256)))]) + data[at + 1:]


def cut(rng, data):
    return data[:rng.randrange(len(data) + 1)]


def inserted(rng, data):
    at = rng.randrange(len(data) + 1)
    return data[:at] + rng.randbytes(rng.choice((1, 1, 2, 7, 33))) + data[at:]


def removed(rng, data):
    at = rng.randrange(len(data) + 1)
    return data[:at] + data[at + rng.choice((1, 1, 2, 7, 33)):]


def appended(rng, data):
    return data + rng.choice((b"\0", rng.randbytes(rng.randint(1, 40)), b"\x03\0\0", b"\x1f\0\0", data))


def fields_swapped(rng, data):
    pieces = fields_of(data)
    if len(pieces) > 1:
        one, other = rng.sample(range(len(pieces)), 2)
        pieces[one], pieces[other] = pieces[other], pieces[one]
    return b"".join(pieces)


def field_doubled(rng, data):
    pieces = fields_of(data) or [b""]
    at = rng.randrange(len(pieces))
    pieces.insert(rng.randint(0, len(pieces)), pieces[at])
    return b"".join(pieces)


def field_dropped(rng, data):
    pieces = fields_of(data) or [b""]
    del pieces[rng.randrange(len(pieces))]
    return b"".join(pieces)


def field_cut(rng, data):
    """A field with a shorter or a longer content, whose length says so or not."""
    pieces = fields_of(data) or [b"\x01\0\0"]
    at = rng.randrange(len(pieces))
    content = pieces[at][3:]
    content = content[:-1] if rng.random() < 0.5 else content + b"\0"
    length = len(content).to_bytes(2, "big") if rng.random() < 0.7 else pieces[at][1:3]
    pieces[at] = pieces[at][:1] + length + content
    return b"".join(pieces)


def tag_changed(rng, data):
    pieces = fields_of(data) or [b"\0"]
    at = rng.randrange(len(pieces))
    pieces[at] = bytes([rng.choice((0, 1, 2, 3, 0x10, 0x11, 0x12, 0x13, 0x1D, 0x1E, 0x1F, 0xFF))]) + pieces[at][1:]
    return b"".join(pieces)


def head_changed(rng, data):
    """One or more other numbers in the first field, of which most stand for something."""
    length = 4 if data[:1] == b"\x10" else 3
    numbers = list(data[3:3 + length])
    for at in rng.sample(range(len(numbers)), rng.randint(min(1, len(numbers)), len(numbers))):
        numbers[at] = rng.choice((0, 1, 2, 3, 4, 16, 17, 255, numbers[at] + 1 & 255))
    return data[:3] + bytes(numbers) + data[3 + len(numbers):]


ANYWHERE = (byte_changed, cut, inserted, removed, appended, fields_swapped, field_doubled, field_dropped, field_cut, tag_changed, head_changed)


def records_in(pieces):
    return [at for at, piece in enumerate(pieces) if piece[:3] == b"\x02\0\x1e" and len(piece) == 33]


def record_changed(rng, data, change):
    """One record's field, if there is one, as it is changed."""
    pieces = fields_of(data)
    if not records_in(pieces):
        return data
    at = rng.choice(records_in(pieces))
    pieces[at] = change(pieces[at])
    return b"".join(pieces)


def limit_met(rng, data):
    """A number of a record as small or as large as it may be, or just beyond."""
    def change(piece):
        start, end, limits = rng.choice(list(RUN_LIMITS.values()))
        return piece[:3 + start] + rng.choice(limits).to_bytes(end - start, "big") + piece[3 + end:]
    return record_changed(rng, data, change)


def limits_met(rng, data):
    """The same of each number of a record, more or less, so that more than one refusal fits."""
    def change(piece):
        content = piece[3:]
        for start, end, limits in RUN_LIMITS.values():
            number = rng.choice(limits).to_bytes(end - start, "big") if rng.random() < 0.5 else content[start:end]
            content = content[:start] + number + content[end:]
        return piece[:3] + content
    return record_changed(rng, data, change)


def made_twin(rng, data):
    """A record gets kind, address and value of a store, and now and then a commit below its enter, too."""
    pieces = fields_of(data)
    stores = [at for at in records_in(pieces) if pieces[at][4] == 2]
    if not stores:
        return data
    one, other = rng.choice(stores), rng.choice(records_in(pieces))
    stamps = rng.choice((pieces[other][17:], bytes(7) + b"\1" + bytes(8)))
    pieces[other] = pieces[other][:4] + pieces[one][4:17] + stamps
    return b"".join(pieces)


def made_blank(rng, data):
    """A record is a fence that kept its address and value, or a store of 0."""
    def change(piece):
        return piece[:4] + rng.choice((b"\x03" + piece[5:17], b"\x02" + piece[5:9] + bytes(8))) + piece[17:]
    return record_changed(rng, data, change)


def grown(rng, data):
    """More records than a run may have, all admissible as far as they go, and now and then more bytes than the program reads."""
    records = [b"\x02\0\x1e" + bytes([0, 1]) + bytes(12) + (2 ** 62 - 1).to_bytes(8, "big") * 2] * rng.choice((56, 63, 64, 65, 70, 130))
    pieces = fields_of(data) or [b""]
    return b"".join(pieces[:-1] + records + pieces[-1:])


OF_RECORDS = (limit_met, limit_met, limits_met, limits_met, made_twin, made_blank)


def damaged_run(rng, data):
    for _ in range(rng.choice((1, 1, 1, 2, 3))):
        data = rng.choice(rng.choice((ANYWHERE, OF_RECORDS)))(rng, data)
    return data


def damaged_paper(rng, data):
    for _ in range(rng.choice((1, 1, 1, 2, 3))):
        data = rng.choice(ANYWHERE)(rng, data)
    return data


def lengthened(rng, data, length):
    """Bytes behind the end, up to a length."""
    return data + rng.randbytes(max(0, length - len(data)))
