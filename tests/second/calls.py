"""The program calls: a list of calls on one case, each told with its answer and how the case then stands (docs/CALLS.md)."""

from typing import NamedTuple

from .case import ORPHANED, Case
from .fields import record_content, record_of
from .faults import Fault
from .settings import SETTINGS

MOST_BYTES = 65_536
OPEN, ADMIT, INFER, SEAL, SEARCH, LOAD, WRITE_RUN, WRITE_SLIP, WRITE_PAPER = range(1, 10)
NAMES = {OPEN: "open", ADMIT: "admit", INFER: "infer", SEAL: "seal", SEARCH: "search", LOAD: "load",
         WRITE_RUN: "write-run", WRITE_SLIP: "write-slip", WRITE_PAPER: "write-paper"}
WRITES = (WRITE_RUN, WRITE_SLIP, WRITE_PAPER)
ARGUMENT_BYTES = {OPEN: 1, ADMIT: 30, INFER: 8, SEAL: 0, SEARCH: 8, LOAD: 2, WRITE_RUN: 2, WRITE_SLIP: 2, WRITE_PAPER: 2}
LENT = b"\xAB"


class Call(NamedTuple):
    """An opcode, and the number, the record or the bytes that go with it; a seal has None."""
    opcode: int
    argument: object = None

    def data(self):
        width = ARGUMENT_BYTES[self.opcode]
        if self.opcode == ADMIT:
            content = record_content(self.argument)
        elif self.opcode == LOAD:
            content = len(self.argument).to_bytes(2, "big") + self.argument
        else:
            content = (self.argument or 0).to_bytes(width, "big")
        return bytes([self.opcode]) + content


class NoCall(Exception):
    """The bytes go on with no whole call."""


def read_call(data, at):
    """The call at an offset, and the offset behind it."""
    opcode = data[at]
    if opcode not in NAMES:
        raise NoCall(f"{opcode:02X} is no opcode")
    end = at + 1 + ARGUMENT_BYTES[opcode]
    content = data[at + 1:end]
    if opcode == LOAD and end <= len(data):
        content, end = data[end:end + int.from_bytes(content, "big")], end + int.from_bytes(content, "big")
    if end > len(data):
        raise NoCall("the call is cut short")
    if opcode == ADMIT:
        return Call(opcode, record_of(content)), end
    return Call(opcode, content if opcode == LOAD else int.from_bytes(content, "big")), end


def verdict_words(case, verdict):
    return f"verdict {verdict} orphan {case.orphan()}" if verdict == ORPHANED else f"verdict {verdict}"


def counted(case, word, answer):
    count, verdict = answer
    return f"{word} {count} {verdict_words(case, verdict)}"


def answer_words(case, call):
    """Makes a call that does not write; what it answers, in words."""
    argument = call.argument
    makes = {
        OPEN: lambda: case.open(argument) or "",
        ADMIT: lambda: f"record {case.admit(argument)}",
        INFER: lambda: counted(case, "lines", case.infer(argument)),
        SEAL: lambda: verdict_words(case, case.seal()),
        SEARCH: lambda: counted(case, "steps", case.search(argument)),
        LOAD: lambda: verdict_words(case, case.load(argument)),
    }
    return f"ok {makes[call.opcode]()}".strip()


def write(case, call):
    writes = {WRITE_RUN: case.write_run, WRITE_SLIP: case.write_slip, WRITE_PAPER: case.write_paper}
    return writes[call.opcode](call.argument)


def made(case, call):
    """Makes a call; what it answered, and the bytes that were lent to it, None where none are."""
    lent = LENT * call.argument if call.opcode in WRITES else None
    try:
        if lent is None:
            return answer_words(case, call), None
        written = write(case, call)
        return f"ok bytes {len(written)}", written + lent[len(written):]
    except Fault as fault:
        return f"refused {fault}", lent


def words(*parts):
    return " ".join(filter(None, parts))


def told(case, number, name, answer, lent):
    """The lines that tell of a call and of how the case stands."""
    yield f"call {number} {name}"
    yield f"answer {answer}"
    if lent is not None:
        yield words("bytes", lent.hex().upper())
    yield (f"state {case.stage()} {verdict_words(case, case.verdict)} processors {case.processors} records {len(case.records)}"
           f" mark {case.walk.mark or 'none'} total {case.total}")
    yield words("lines", *(",".join(map(str, line)) for line in case.lines.listed))
    yield words("placed", *map(str, case.walk.placed))


def setting_marked(data):
    """The setting that the first two bytes mark, None where they mark none."""
    return next((setting for setting in SETTINGS if data[:2] == bytes([setting.model.mark, setting.clock.mark])), None)


def calls(data):
    """The lines that the program prints, its exit status, what it says on standard error of a call that is none, and the case as
    it then stands; None where nothing is said of what stands on standard error, or no case was made."""
    setting = setting_marked(data)
    if len(data) > MOST_BYTES or setting is None:
        return [], 1, None, None
    case, number, at = Case(setting), 0, 2
    lines = list(told(case, number, "new", "ok", None))
    while at < len(data):
        number += 1
        try:
            call, behind = read_call(data, at)
        except NoCall as why:
            return lines, 1, f"calls: call {number}, at byte {at}: {why}", case
        lines += told(case, number, NAMES[call.opcode], *made(case, call))
        at = behind
    return lines, 0, "", case
