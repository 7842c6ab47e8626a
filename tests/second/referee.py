"""The referee, which checks a paper against its run (docs/REFEREE.md)."""

from . import faults
from .faults import Fault
from .fields import LINE, ORDER, ORPHAN, PAPER_END, PAPER_HEAD, line_of, marks, nothing_behind, read_field, read_run
from .lines import Lines
from .orders import is_legal
from .records import MOST_PROCESSORS, admission_fault, is_orphan
from .settings import GLOBAL, GODSON, NONE, SC, Setting

RECORD_PLACES, LINE_PLACES = 64, 4032
FOUND, OPPOSED, ORPHANED = 1, 2, 3
VERDICTS = {FOUND: "order", OPPOSED: "opposed lines", ORPHANED: "orphan"}
READ = 65536


class Referee:
    """What was read of a run, and the lines of its paper that were founded."""

    def __init__(self, setting, record_places=RECORD_PLACES, line_places=LINE_PLACES):
        self.setting = setting
        self.record_places, self.line_places = record_places, line_places
        self.processors = 0
        self.records = []
        self.lines = Lines(setting, self.records)

    def begin(self, processors):
        self.processors = processors
        return None if 1 <= processors <= MOST_PROCESSORS else faults.STRANGER

    def admit(self, record):
        number = admission_fault(self.records, self.processors, record)
        if number is None and len(self.records) >= self.record_places:
            return faults.SHORT
        if number is None:
            self.records.append(record)
        return number

    def read_head(self, paper):
        """The verdict, and the offset behind the head."""
        _, head, at = read_field(paper, 0, {PAPER_HEAD: 4}, faults.PAPER_BYTES)
        if head[0] not in VERDICTS:
            raise Fault(faults.MALFORMED, faults.PAPER_BYTES, 0)
        if head[1:] != marks(self.setting) + bytes([len(self.records)]):
            raise Fault(faults.FOREIGN, faults.PAPER_BYTES, 0)
        return head[0], at

    def take_line(self, line, at):
        if len(self.lines.listed) >= self.line_places:
            raise Fault(faults.SHORT, faults.LINES, at)
        if not self.lines.is_founded(line):
            raise Fault(faults.UNFOUNDED, faults.LINES, at)
        self.lines.append(line)

    def read_lines(self, paper, at):
        """Whether the last line is opposed, and the offset of the end."""
        tag, content, behind = read_field(paper, at, {LINE: 4, PAPER_END: 0}, faults.PAPER_BYTES)
        while tag == LINE:
            self.take_line(line_of(content), at)
            at = behind
            tag, content, behind = read_field(paper, at, {LINE: 4, PAPER_END: 0}, faults.PAPER_BYTES)
        return self.lines.is_opposed(), at

    def read_body(self, verdict, paper, at):
        """Whether the conclusion holds, and the offset of the end."""
        if verdict == OPPOSED:
            return self.read_lines(paper, at)
        shape = {ORDER: len(self.records)} if verdict == FOUND else {ORPHAN: 1}
        _, content, end = read_field(paper, at, shape, faults.PAPER_BYTES)
        if verdict == FOUND:
            return is_legal(self.records, self.setting, content), end
        return is_orphan(self.records, content[0]), end

    def judge(self, run, paper):
        """The verdict of the paper, which is accepted."""
        read_run(run, self.setting, self.begin, self.admit)
        verdict, at = self.read_head(paper)
        holds, end = self.read_body(verdict, paper, at)
        _, _, behind = read_field(paper, end, {PAPER_END: 0}, faults.PAPER_BYTES)
        nothing_behind(paper, behind, faults.PAPER_BYTES)
        if not holds:
            raise Fault(faults.HOLLOW, faults.LINES, end)
        return verdict


def marked(run):
    """The setting that the head of a run marks."""
    return Setting(GODSON if run[4:5] == b"\x03" else SC, NONE if run[5:6] == b"\x03" else GLOBAL)


def recheck(run, paper):
    """The line and the exit status of the program recheck."""
    try:
        verdict = Referee(marked(run)).judge(run[:READ], paper[:READ])
    except Fault as fault:
        return f"refused {fault}", 1
    return f"accepted {verdict} {VERDICTS[verdict]}", 0
