"""Text logs: the programs assemble and disassemble (docs/LOGS.md)."""

import re
from typing import NamedTuple

from . import faults
from .case import Case
from .faults import Fault
from .fields import read_run, run_bytes
from .program import READ
from .records import FENCE, LOAD, MOST_PROCESSORS, READINGS_END, STORE, Record
from .referee import marked
from .settings import GLOBAL, GODSON, NONE, SC, Setting

MOST_BYTES = 1_048_576
BLANKS = b" \t\r"
WORD = re.compile(rb"[0-9A-Z_a-z]*")
DIGITS = {10: re.compile(rb"[0-9]+"), 16: re.compile(rb"[0-9a-f]+")}
ANY_TIME = (0, READINGS_END - 1)
MOST_NAMED, MOST_COUNTED = 254, 255     # a processor's number and a number of processors, as they may be written
MODELS, CLOCKS = {b"sc": SC, b"godson": GODSON}, {b"global": GLOBAL, b"none": NONE}
KINDS = {b":=": STORE, b"==": LOAD}
SIGNS = {kind: sign.decode() for sign, kind in KINDS.items()}

BEGINNING = "a processor number, model, clock or processors"
MODEL, CLOCK, PROCESSORS = "SC or Godson", "global or none", "a number of processors, 255 at most"
PROCESSOR, COLON = "a processor number, 254 at most", '":" after the processor number'
OPERATION, OPENING = "M or sync", '"[" before the address'
ADDRESS, CLOSING = "an address, in hexadecimal, of 32 bits at most", '"]" after the address'
SIGN, VALUE = '":=" for a store or "==" for a load', "a value of 64 bits at most"
STAMP, ENTER = '"@" and two readings, or the end of the line', "an enter reading of 64 bits at most"
BETWEEN, COMMIT = '":" between the readings', "a commit reading of 64 bits at most"
END, LATE = "the end of the line", "head lines before the first access"
ONCE = tuple(f"one {word} line at most" for word in ("model", "clock", "processors"))
EXPECTATIONS = (BEGINNING, MODEL, CLOCK, PROCESSORS, PROCESSOR, COLON, OPERATION, OPENING, ADDRESS, CLOSING, SIGN, VALUE, STAMP, ENTER,
                BETWEEN, COMMIT, END, *ONCE, LATE)

SENTENCES = {
    faults.MALFORMED: "A field has a wrong tag or length, the bytes end too early or go on behind the end, or a paper's verdict is not 1, 2 or 3.",
    faults.FOREIGN: "A mark in the head is not that of the model or the clock in use, or a paper is of another number of records.",
    faults.FULL: "The case already has 64 records.",
    faults.STRANGER: "The processor is not one of the run's, or the number of processors is not 1 to 16.",
    faults.KIND: "The kind is not 1 (load), 2 (store) or 3 (fence).",
    faults.BLANK: "A store has the value 0, or a fence has an address or a value.",
    faults.RANGE: "The enter or the commit reading is 2^62 or more.",
    faults.BACKWARD: "The commit reading is below the enter reading, or the enter reading below the processor's last.",
    faults.TWIN: "A store has the address and the value of an admitted store.",
}


class Expected(Exception):
    """A line goes wrong where this was expected."""


class Parts:
    """The parts of a line, without blanks and comment, taken from its front."""

    def __init__(self, line):
        self.rest = line.partition(b"#")[0].lstrip(BLANKS)

    def take(self, part):
        """Whether the line goes on with this part, which is then taken."""
        if not self.rest.startswith(part):
            return False
        self.rest = self.rest[len(part):].lstrip(BLANKS)
        return True

    def need(self, part, expected):
        if not self.take(part):
            raise Expected(expected)

    def word(self):
        """The letters, digits and underscores that come next, in lower case."""
        word = WORD.match(self.rest)[0]
        self.take(word)
        return word.lower()

    def named(self, names, expected):
        """What the next word stands for."""
        word = self.word()
        if word not in names:
            raise Expected(expected)
        return names[word]

    def number(self, most, expected, base=10):
        number = number_of(self.word(), base)
        if number is None or number > most:
            raise Expected(expected)
        return number

    def end(self, expected):
        if self.rest:
            raise Expected(expected)


def number_of(word, base):
    """The number that a word in lower case says, None where it says none."""
    digits, base = (word[2:], 16) if word.startswith(b"0x") else (word, base)
    if not DIGITS[base].fullmatch(digits):
        return None
    return int(digits.lstrip(b"0")[:99] or b"0", base)     # 99 digits say too great a number already


class Access(NamedTuple):
    """An access, and the number of its line."""
    line: int
    record: Record


class Log:
    """What the lines say that were read."""

    def __init__(self):
        self.head = {}
        self.accesses = []
        self.counted_at = None      # the number of the line `processors`

    def read(self, number, line):
        """Reads a line, which may have nothing."""
        parts = Parts(line)
        if not parts.rest:
            return
        if parts.rest[:1].isdigit():
            self.accesses.append(Access(number, access(parts)))
        else:
            self.read_head(number, parts)

    def read_head(self, number, parts):
        """Reads a head line. Whether it may stand there is asked where it is one."""
        word = parts.word()
        says = {b"model": lambda: parts.named(MODELS, MODEL), b"clock": lambda: parts.named(CLOCKS, CLOCK),
                b"processors": lambda: parts.number(MOST_COUNTED, PROCESSORS)}
        if word not in says:
            raise Expected(BEGINNING)
        said = says[word]()
        parts.end(END)
        if self.accesses:
            raise Expected(LATE)
        if word in self.head:
            raise Expected(f"one {word.decode()} line at most")
        self.head[word] = said
        if word == b"processors":
            self.counted_at = number

    def setting(self):
        return Setting(self.head.get(b"model", SC), self.head.get(b"clock", GLOBAL))

    def processors(self):
        named = max((access.record.processor for access in self.accesses), default=0)
        return self.head.get(b"processors", named + 1)

    def opened_at(self):
        """The line that says that there are too few processors or too many."""
        return self.counted_at or next(line for line, record in self.accesses if record.processor >= MOST_PROCESSORS)


def access(parts):
    """The record that an access says."""
    processor = parts.number(MOST_NAMED, PROCESSOR)
    parts.need(b":", COLON)
    kind, address, value = operation(parts)
    return Record(processor, kind, address, value, *stamp(parts))


def operation(parts):
    """Kind, address and value."""
    if parts.named({b"m": False, b"sync": True}, OPERATION):
        return FENCE, 0, 0
    parts.need(b"[", OPENING)
    address = parts.number(2 ** 32 - 1, ADDRESS, 16)
    parts.need(b"]", CLOSING)
    kind = next((kind for sign, kind in KINDS.items() if parts.take(sign)), None)
    if kind is None:
        raise Expected(SIGN)
    return kind, address, parts.number(2 ** 64 - 1, VALUE)


def stamp(parts):
    """The two readings, up to the end of the line."""
    if not parts.take(b"@"):
        parts.end(STAMP)
        return ANY_TIME
    enter = parts.number(2 ** 64 - 1, ENTER)
    parts.need(b":", BETWEEN)
    commit = parts.number(2 ** 64 - 1, COMMIT)
    parts.end(END)
    return enter, commit


class Refused(Exception):
    """What is said on standard error, behind the program's name."""


def told(fault):
    """A refusal in words."""
    return f"refused {fault}: {SENTENCES[fault.number]}"


def read_log(data):
    """What all lines of a text say."""
    log = Log()
    for number, line in enumerate(data.split(b"\n"), 1):
        try:
            log.read(number, line)
        except Expected as expected:
            raise Refused(f"line {number}: expected {expected}") from None
    return log


def admitted(log):
    """The open case of the accesses of a log."""
    case, line = Case(log.setting()), None
    try:
        case.open(log.processors())
        for line, record in log.accesses:
            case.admit(record)
    except Fault as fault:
        raise Refused(f"line {line or log.opened_at()}: {told(fault)}") from None
    return case


def answered(name, answer):
    """What a program writes on standard output and standard error, and its exit status."""
    try:
        return answer(), b"", 0
    except Refused as refused:
        return b"", f"{name}: {refused}\n".encode(), 1


def assembled(data):
    if len(data) > MOST_BYTES:
        raise Refused(f"the log has more than {MOST_BYTES} bytes")
    case = admitted(read_log(data))
    return run_bytes(case.processors, case.setting, case.records)


def assemble(data):
    """The program assemble on a text."""
    return answered("assemble", lambda: assembled(data))


def record_line(record):
    """A record as it is printed."""
    did = "sync" if record.kind == FENCE else f"M[{record.address:x}] {SIGNS[record.kind]} {record.value}"
    when = "" if (record.enter, record.commit) == ANY_TIME else f" @ {record.enter}:{record.commit}"
    return f"{record.processor}: {did}{when}"


def log_lines(case):
    """The lines of a log as it is printed."""
    yield f"model {case.setting.model.word}"
    yield f"clock {case.setting.clock.word.lower()}"
    yield f"processors {case.processors}"
    yield from map(record_line, case.records)


def disassembled(data):
    case = Case(marked(data))
    try:
        read_run(data[:READ], case.setting, case.opening_fault, case.admit_fault)
    except Fault as fault:
        raise Refused(told(fault)) from None
    return "".join(f"{line}\n" for line in log_lines(case)).encode()


def disassemble(data):
    """The program disassemble on the bytes of a run."""
    return answered("disassemble", lambda: disassembled(data))
