"""Fields: how runs, slips, papers and notices stand in bytes (docs/FORMAT.md)."""

from . import faults
from .faults import Fault
from .lines import Line
from .records import Record

HEAD, RECORD, END = 0x01, 0x02, 0x03
PAPER_HEAD, LINE, ORDER, ORPHAN = 0x10, 0x11, 0x12, 0x13
SLIP, NOTICE, PAPER_END = 0x1D, 0x1E, 0x1F


def field(tag, content):
    return bytes([tag]) + len(content).to_bytes(2, "big") + content


def read_field(data, at, lengths, layer):
    """The tag and the content of the field at an offset, and the offset behind it. `lengths` has the tags that may stand
    there, each with its length; whatever else is found is a fault of shape."""
    length = int.from_bytes(data[at + 1:at + 3], "big")
    behind = at + 3 + length
    if len(data) < at + 3 or lengths.get(data[at]) != length or len(data) < behind:
        raise Fault(faults.MALFORMED, layer, at)
    return data[at], data[at + 3:behind], behind


def nothing_behind(data, at, layer):
    if at < len(data):
        raise Fault(faults.MALFORMED, layer, at)


def marks(setting):
    return bytes([setting.model.mark, setting.clock.mark])


def record_content(record):
    return (bytes([record.processor, record.kind]) + record.address.to_bytes(4, "big")
            + b"".join(number.to_bytes(8, "big") for number in record[3:]))


def record_of(content):
    numbers = [int.from_bytes(content[at:end], "big") for at, end in ((2, 6), (6, 14), (14, 22), (22, 30))]
    return Record(content[0], content[1], *numbers)


def run_bytes(processors, setting, records):
    return (field(HEAD, bytes([processors]) + marks(setting))
            + b"".join(field(RECORD, record_content(record)) for record in records) + field(END, b""))


def read_run(data, setting, begin, admit):
    """Reads a run, front to back. begin(processors) and admit(record) answer the number of a refusal, or None."""
    _, head, at = read_field(data, 0, {HEAD: 3}, faults.RUN_BYTES)
    number = faults.FOREIGN if head[1:] != marks(setting) else begin(head[0])
    if number:
        raise Fault(number, faults.CONTENT, 0)
    tag, content, behind = read_field(data, at, {RECORD: 30, END: 0}, faults.RUN_BYTES)
    while tag == RECORD:
        number = admit(record_of(content))
        if number:
            raise Fault(number, faults.CONTENT, at)
        at = behind
        tag, content, behind = read_field(data, at, {RECORD: 30, END: 0}, faults.RUN_BYTES)
    nothing_behind(data, behind, faults.RUN_BYTES)


def slip_bytes(verdict, total):
    return field(SLIP, bytes([verdict]) + total.to_bytes(8, "big"))


def notice_bytes(fault):
    return field(NOTICE, bytes([fault.number, fault.layer]) + fault.place.to_bytes(4, "big"))


def line_bytes(line):
    return field(LINE, bytes(line))


def line_of(content):
    return Line(*content)


def paper_bytes(verdict, setting, count, body):
    return field(PAPER_HEAD, bytes([verdict]) + marks(setting) + bytes([count])) + body + field(PAPER_END, b"")
