"""Seeded text logs: runs in many spellings, damaged ones, and texts without plan."""

from . import damage
from .logs import ANY_TIME, MOST_BYTES, SIGNS
from .records import FENCE, LOAD, MOST_PROCESSORS, MOST_RECORDS, READINGS_END, STORE, Record
from .settings import GLOBAL, SC

LIMITS = {      # the limits of the numbers in a text, by what stands there in PLACES
    "count": (0, 1, MOST_PROCESSORS, MOST_PROCESSORS + 1, 254, 255, 256),
    "processor": (0, 1, MOST_PROCESSORS - 1, MOST_PROCESSORS, 253, 254, 255, 256),
    "address": (0, 1, 2 ** 32 - 1, 2 ** 32),
    "value": (0, 1, 2 ** 64 - 1, 2 ** 64),
    "enter": (0, 1, READINGS_END - 1, READINGS_END, 2 ** 64 - 1, 2 ** 64),
    "commit": (0, 1, READINGS_END - 1, READINGS_END, 2 ** 64 - 1, 2 ** 64),
}
PLACES = {
    "count": b"processors %s\n", "processor": b"%s: sync\n", "address": b"0: M[%s] == 0\n", "value": b"0: M[10] == %s\n",
    "enter": b"0: sync @ %s:4611686018427387903\n", "commit": b"0: sync @ 0:%s\n",
}
WRAPPING = (2 ** 8 + 1, 2 ** 32 + 1, 2 ** 63, 2 ** 64 + 1, 2 ** 128 + 1, 10 ** 400)     # small ones, where bits are lost
VOCABULARY = (b"model", b"clock", b"processors", b"SC", b"Godson", b"global", b"none", b"M", b"sync", b"[", b"]", b":", b":=", b"==", b"@",
              b"=", b"#", b"0", b"1", b"2", b"10", b"0x10", b"0x", b"ff", b"x", b"-1", b"256", b"99999999999", b"_", b"load", b";", b"0 0",
              b"\0", b"\x0b", b"\xff", b"\r", b"\n", b": =")
COMMENTS = (b"", b" a comment", b"# model SC", b"0: sync", b"\0\xff")
ALPHABET = b"0123456789abcdefxMmsyncSC:=[]@# \t\r\n\n"


def is_word(part):
    """Whether the part is a word or a number, which run together with others where no blank stands between."""
    return part[:1].isalnum() or part[:1] == b"_"


class Hand:
    """Writes logs in a manner of its own. A line is a list of parts, between which blanks may stand."""

    def __init__(self, rng):
        self.rng = rng
        self.plain = rng.random() < 0.15
        self.often = {what: rng.choice((0, 0, 0.1, 0.5, 0.9))
                      for what in ("blank", "case", "base", "zeros", "comment", "empty", "short", "unsaid")}
        self.end = rng.choice((b"\n", b"\n", b"\r\n"))

    def does(self, what):
        return not self.plain and self.rng.random() < self.often[what]

    def word(self, word):
        """A word, or digits, in any case."""
        cased = "".join(self.rng.choice((letter.lower(), letter.upper())) for letter in word) if self.does("case") else word
        return cased.encode()

    def number(self, number, base=10):
        zeros = "0" * self.rng.choice((1, 2, 7, 40)) if self.does("zeros") else ""
        if self.does("base"):
            return self.word(f"0x{zeros}{number:x}")
        return self.word(f"{zeros}{number:x}" if base == 16 else f"{zeros}{number}")

    def stamp(self, record):
        if (record.enter, record.commit) == ANY_TIME and self.rng.random() < 0.8:
            return []
        return [b"@", self.number(record.enter), b":", self.number(record.commit)]

    def access(self, record):
        front = [self.number(record.processor), b":"]
        if record.kind == FENCE:
            return front + [self.word("sync")] + self.stamp(record)
        return (front + [self.word("M"), b"[", self.number(record.address, 16), b"]", SIGNS[record.kind].encode(), self.number(record.value)]
                + self.stamp(record))

    def head(self, run):
        """The head lines in any order, mostly without what goes without saying."""
        model, clock = run.setting
        named = max((record.processor for record in run.records), default=0) + 1
        lines = [([self.word("model"), self.word(model.word)], model == SC),
                 ([self.word("clock"), self.word(clock.word.lower())], clock == GLOBAL),
                 ([self.word("processors"), self.number(run.processors)], run.processors == named)]
        said = [line for line, unsaid in lines if not (unsaid and self.does("unsaid"))]
        return said if self.plain else self.rng.sample(said, len(said))

    def lines(self, run):
        """The lines of a run, empty ones among them."""
        written = []
        for line in self.head(run) + [self.access(record) for record in run.records]:
            written += [[]] * self.does("empty") + [line]
        return written

    def blanks(self, least):
        """Some blanks, or the usual one."""
        if self.does("blank"):
            return bytes(self.rng.choices(b"  \t\r", k=self.rng.randint(least, 4)))
        return b" " * least if self.does("short") else b" "

    def between(self, before, part):
        """The blanks between two parts, the first of which is empty at the beginning of a line."""
        if before or self.does("blank"):
            return self.blanks(int(is_word(before) and is_word(part)))
        return b""

    def comment(self):
        return self.blanks(0) + b"#" + self.rng.choice(COMMENTS) if self.does("comment") else b""

    def joined(self, line):
        """A line with its blanks and its comment."""
        pieces = [self.between(before, part) + part for before, part in zip([b""] + line, line)]
        return b"".join(pieces) + self.comment()

    def text(self, lines):
        text = self.end.join(map(self.joined, lines))
        return text if self.does("short") else text + self.end


def timeless(rng, run):
    """The first records of the run, or all, may have taken place at any time, or nearly so."""
    count = rng.choice((0, 0, 1, rng.randint(0, len(run.records)), len(run.records)))
    stamps = [rng.choice((ANY_TIME,) * 6 + ((0, READINGS_END - 2), (0, 0))) for _ in range(count)]
    first = [record._replace(enter=enter, commit=commit) for record, (enter, commit) in zip(run.records, stamps)]
    return run._replace(records=first + run.records[len(first):], order=None)


def blanked(rng, run, at):
    """A store of 0."""
    return run.records[at]._replace(kind=STORE, value=0)


def ranged(rng, run, at):
    """A reading that is too great, or as great as may be."""
    reading = rng.choice((READINGS_END - 1, READINGS_END, READINGS_END + 1, 2 ** 64 - 1))
    return run.records[at]._replace(**rng.choice(({"enter": reading}, {"commit": reading}, {"enter": reading, "commit": reading})))


def set_back(rng, run, at):
    """A reading 1 below what it may be, or as small as it may be."""
    record = run.records[at]
    last = max((other.enter for other in run.records[:at] if other.processor == record.processor), default=0)
    if rng.random() < 0.5:
        return record._replace(enter=max(0, last - rng.randint(0, 1)))
    return record._replace(commit=max(0, record.enter - rng.randint(0, 1)))


def twinned(rng, run, at):
    """Address and value of another store."""
    stores = [other for other in run.records if other.kind == STORE] or [Record(0, STORE, 16, 1, 0, 0)]
    store = rng.choice(stores)
    return run.records[at]._replace(kind=rng.choice((STORE, STORE, STORE, LOAD)), address=store.address, value=store.value)


def estranged(rng, run, at):
    """A processor that is not one of the run's, or just is."""
    return run.records[at]._replace(processor=rng.choice((run.processors, run.processors, run.processors - 1, 15, 16, 254)))


CHANGES = (blanked, ranged, ranged, set_back, set_back, set_back, twinned, twinned, estranged)


def one_changed(rng, run):
    """A record is changed, so that it may be refused."""
    if not run.records:
        return run
    at = rng.randrange(len(run.records))
    return run._replace(records=run.records[:at] + [rng.choice(CHANGES)(rng, run, at)] + run.records[at + 1:], order=None)


def recounted(rng, run):
    """Another number of processors."""
    return run._replace(processors=rng.choice((0, 1, max(0, run.processors - 1), MOST_PROCESSORS, MOST_PROCESSORS + 1, 254, 255)))


def overfilled(rng, run):
    """As many records as a run may have, or more, of which the last is now and then refused for something else, too."""
    more = [Record(0, LOAD, 16, 0, READINGS_END - 1, READINGS_END - 1)] * 70
    records = (run.records + more)[:rng.choice((MOST_RECORDS, MOST_RECORDS + 1, MOST_RECORDS + 2, 70))]
    if rng.random() < 0.3:
        records[-1] = rng.choice((records[-1]._replace(processor=run.processors), Record(0, STORE, 16, 0, 0, 0)))
    return run._replace(records=records, order=None)


def unlawful(rng, run):
    """A run that breaks the rules, or nearly."""
    for _ in range(rng.choice((1, 1, 2, 3))):
        run = rng.choices((one_changed, recounted, overfilled), (10, 2, 2))[0](rng, run)
    return run


def limit_number(rng, place):
    """A number at a limit of what may stand there, or near it, or far beyond."""
    near = rng.choice(LIMITS[place]) + rng.choice((0, 0, 0, 1, -1))
    return max(0, near) if rng.random() < 0.8 else rng.choice(WRAPPING)


def limit_text(rng):
    """A line or two with a number at its limits, and a sound line before or behind."""
    hand, texts = Hand(rng), [b"0: M[10] := 1 @ 0:4\n" if rng.random() < 0.3 else b""]
    for place in rng.sample(sorted(PLACES), rng.choice((1, 1, 2))):
        texts.append(PLACES[place] % hand.number(limit_number(rng, place), 16 if place == "address" else 10))
    rng.shuffle(texts)
    return b"".join(texts)


def part_removed(rng, line):
    at = rng.randrange(len(line))
    return line[:at] + line[at + 1:]


def part_doubled(rng, line):
    at = rng.randrange(len(line))
    return line[:at] + [line[at]] + line[at:]


def parts_swapped(rng, line):
    one, other = rng.randrange(len(line)), rng.randrange(len(line))
    return [line[{one: other, other: one}.get(at, at)] for at in range(len(line))]


def part_inserted(rng, line):
    at = rng.randint(0, len(line))
    return line[:at] + [rng.choice(VOCABULARY)] + line[at:]


def part_replaced(rng, line):
    at = rng.randrange(len(line))
    return line[:at] + [rng.choice(VOCABULARY)] + line[at + 1:]


def part_lengthened(rng, line):
    """Something stands right before or behind a part."""
    at, more = rng.randrange(len(line)), rng.choice(VOCABULARY)
    return line[:at] + [rng.choice((more + line[at], line[at] + more))] + line[at + 1:]


def parts_joined(rng, line):
    """No blank between two parts."""
    at = rng.randrange(len(line))
    return line[:at] + [b"".join(line[at:at + 2])] + line[at + 2:]


def line_cut(rng, line):
    return line[:rng.randrange(len(line) + 1)]


OF_PARTS = (part_removed, part_doubled, parts_swapped, part_inserted, part_replaced, part_lengthened, parts_joined, line_cut, line_cut)


def line_moved(rng, lines):
    """A line stands twice, elsewhere, or not at all."""
    at, place = rng.randrange(len(lines)), rng.randint(0, len(lines))
    rest = lines[:at] + lines[at + 1:]
    return rng.choice((lines[:place] + [lines[at]] + lines[place:], rest[:place] + [lines[at]] + rest[place:], rest))


def head_line_inserted(rng, lines):
    """A head line more, sound or not, at the top or anywhere."""
    place = rng.randint(0, rng.choice((min(3, len(lines)), len(lines))))
    line = rng.choice((b"model SC", b"clock none", b"processors 3", b"model TSO", b"clock", b"processors 2 2"))
    return lines[:place] + [line.split()] + lines[place:]


def lines_damaged(rng, lines):
    """Damage to the parts of lines, or to their order."""
    for _ in range(rng.choice((1, 1, 1, 2, 3))):
        filled = [at for at, line in enumerate(lines) if line]
        kind = rng.random()
        if filled and kind < 0.65:
            at = rng.choice(filled)
            lines = lines[:at] + [rng.choice(OF_PARTS)(rng, lines[at])] + lines[at + 1:]
        elif filled and kind < 0.8:
            lines = line_moved(rng, lines)
        else:
            lines = head_line_inserted(rng, lines)
    return lines


def letter_changed(rng, text):
    """Another of the bytes that mean something."""
    at = rng.randrange(len(text) + 1)
    return text[:at] + bytes([rng.choice(ALPHABET)]) + text[at + rng.randint(0, 1):]


OF_BYTES = (damage.byte_changed, damage.byte_changed, damage.cut, damage.inserted, damage.removed, damage.appended, letter_changed, letter_changed)


def bytes_damaged(rng, text):
    for _ in range(rng.choice((1, 1, 1, 2, 3))):
        text = rng.choice(OF_BYTES)(rng, text)
    return text


def without_plan(rng):
    """Bytes, letters or parts as they come."""
    size = rng.randint(0, 40)
    parts = rng.choice((b" ", b"")).join(rng.choices(VOCABULARY, k=size // 3))
    return rng.choice((rng.randbytes(size), bytes(rng.choices(ALPHABET, k=size)), parts))


def text_of(rng, run):
    """A text of the run, sound or not."""
    hand, kind = Hand(rng), rng.random()
    if kind < 0.3:
        return hand.text(hand.lines(timeless(rng, run)))
    if kind < 0.55:
        return hand.text(hand.lines(unlawful(rng, run)))
    if kind < 0.75:
        return hand.text(lines_damaged(rng, hand.lines(run)))
    if kind < 0.87:
        return bytes_damaged(rng, hand.text(hand.lines(run)))
    return limit_text(rng) if kind < 0.96 else without_plan(rng)


def limit_texts():
    """Each number at its limits, and far beyond, as it is mostly written and in hexadecimal behind many zeros."""
    for place, line in PLACES.items():
        for number in (*LIMITS[place], *WRAPPING):
            yield line % (b"%x" if place == "address" else b"%d") % number
            yield line % b"0x%060x" % number


def accesses(count):
    """So many accesses that are admitted as far as they may be."""
    return b"".join(b"0: M[10] == 0 @ %d:%d\n" % (at, at) for at in range(count))


def of_length(text, length):
    """The text and blanks behind it, up to a length."""
    return text + b" " * (length - len(text))


UNREAD = (      # a text for each expectation, and for some of them in more than one place
    b"store 1", b"\xff", b"model TSO", b"model", b"clock local", b"processors", b"processors 256", b"255: sync", b"1a: sync", b"0 sync", b"0: load",
    b"0:", b"0: M 10] == 0", b"0: M[] == 0", b"0: M[100000000] == 0", b"0: M[10 == 0", b"0: M[10] = 0", b"0: M[10] ==",
    b"0: M[10] == 18446744073709551616", b"0: M[10] == 0 10:90", b"0: sync 10", b"0: sync @ x:90", b"0: sync @ 10 90", b"0: sync @ 10:",
    b"0: sync @ 10:90 done", b"model SC SC", b"model SC\nmodel SC", b"clock none\nclock none", b"processors 1\nprocessors 1", b"0: sync\nmodel SC")
TOGETHER = (    # more than one thing is wrong: what is told first
    b"model SC\nmodel TSO", b"model SC\n0: sync\nmodel SC", b"0: sync\nprocessors 256", b"0: sync\nmodel SC SC", b"0: M[10] := 0\n0: M[zz] := 1",
    b"17: sync\nprocessors 0", b"processors 0\n0: M[10] := 0", b"processors 17\n0: x", b"0: M[10] := 0\n16: sync", b"16: sync\n254: sync",
    b"processors 1\n0: sync\n254: M[10] := 0 @ 4611686018427387904:0", b"0: M[10] := 0 @ 4611686018427387904:0",
    b"0: M[10] := 1 @ 4611686018427387904:0", b"0: M[10] := 1\n0: M[10] := 1 @ 2:1", accesses(64) + b"1: M[10] := 0 @ 2:1",
    b"processors 1\n" + accesses(64) + b"1: M[10] := 0", accesses(64) + b"16: sync", accesses(65) + b"0: x")
REFUSED = (     # a text for each refusal
    b"processors 0", b"processors 17", b"16: sync", b"processors 2\n2: sync", accesses(65), b"0: M[10] := 0", b"0: sync @ 0:4611686018427387904",
    b"0: sync @ 2:1", b"0: sync @ 2:2\n0: sync @ 1:3", b"0: M[10] := 1\n1: M[10] := 1")
PLAIN = (
    b"", b"\n", b"\r", b"#", b"# no end", b"\n\n#\r\n\t \n", b"processors 16", b"15: sync", b"model Godson\nclock none\nprocessors 1",
    accesses(64), b"0:M[10]:=1@10:90", b"0x0:m[0X10]==0X0aF@0x0A:0x5a", b"modelSC", b"processors2", b"0:syncx", b"0: M[10] : = 1",
    b"0: M[1 0] := 1", b"0: sync_", b"0: sync\r0: sync", b"0: sync @ 10:90\n0: sync", b"0: sync @ 0:4611686018427387903", b"0: M[10] == 0#",
    b"\xef\xbb\xbfmodel SC", b"\x0c", b"\0")
MANY = (
    of_length(accesses(3), MOST_BYTES), of_length(accesses(3), MOST_BYTES + 1), b"x" * (MOST_BYTES + 1), b"\n" * (MOST_BYTES - 1) + b"x",
    b"0:sync\n" * 149_796, b"0:sync\n" * 149_796 + b"x", b"0: M[10] := " + b"0" * 70_000 + b"1", b"0: M[10] := " + b"1" * 70_000,
    b"0: sync @ 0x" + b"f" * 70_000)
FIXED_TEXTS = (*UNREAD, *TOGETHER, *REFUSED, *PLAIN, *MANY, *limit_texts())
