"""The case: a run as it grows, and its verdict (docs/RULES.md)."""

from . import faults
from .faults import Fault
from .fields import ORDER, ORPHAN, field, line_bytes, paper_bytes, read_run, run_bytes, slip_bytes
from .inference import Inference
from .lines import Lines
from .records import MOST_PROCESSORS, admission_fault, smallest_orphan
from .search import Search

UNDECIDED, FOUND, OPPOSED, ORPHANED, EXHAUSTED = range(5)
MOST_STEPS = 2 ** 62


class Case:
    def __init__(self, setting):
        self.setting = setting
        self.begin(1)

    def begin(self, processors):
        self.processors = processors
        self.records = []
        self.sealed = False
        self.verdict = UNDECIDED
        self.lines = Lines(self.setting, self.records)
        self.inference = Inference(self.lines)
        self.walk = Search(self.setting, self.records)
        self.total = 0

    def stage(self):
        if self.verdict != UNDECIDED:
            return "decided"
        return "sealed" if self.sealed else "open"

    def refuse(self, number):
        """Refuses a call, where there is a number to refuse it with."""
        if number:
            raise Fault(number, faults.CONTENT, len(self.records) + 1)

    def stage_fault(self, refused):
        """The number that refuses a call in this stage, None where it passes; `refused` has the stages that refuse it."""
        return refused.get(self.stage())

    def opening_fault(self, processors):
        """Opens the case, or answers the number of the refusal."""
        if not 1 <= processors <= MOST_PROCESSORS:
            return faults.STRANGER
        self.begin(processors)
        return None

    def open(self, processors):
        self.refuse(self.opening_fault(processors))

    def load(self, data):
        """Answers the verdict. A fault in the middle leaves the case open, with the records before it."""
        read_run(data, self.setting, self.opening_fault, self.admit_fault)
        return self.seal()

    def admit_fault(self, record):
        """Admits a record to the open case, or answers the number of the refusal."""
        number = admission_fault(self.records, self.processors, record)
        if number is None:
            self.records.append(record)
        return number

    def admit(self, record):
        """Answers the record's number."""
        self.refuse(self.stage_fault({"decided": faults.DECIDED, "sealed": faults.SEALED}))
        self.refuse(self.admit_fault(record))
        return len(self.records)

    def infer(self, k):
        """Answers how many lines were listed, and the verdict."""
        self.refuse(self.stage_fault({"decided": faults.DECIDED}))
        count = self.inference.infer(k)
        if count and self.lines.is_opposed():
            self.verdict = OPPOSED
        return count, self.verdict

    def seal(self):
        """Answers the verdict."""
        self.refuse(self.stage_fault({"decided": faults.DECIDED, "sealed": faults.SEALED}))
        self.sealed = True
        self.walk = Search(self.setting, self.records)
        if self.orphan() is not None:
            self.verdict = ORPHANED
        elif not self.records:
            self.verdict = FOUND
        return self.verdict

    def orphan(self):
        return smallest_orphan(self.records)

    def search(self, k):
        """Answers how many steps were made, and the verdict."""
        self.refuse(self.stage_fault({"decided": faults.DECIDED, "open": faults.UNSEALED}))
        self.refuse(faults.SPENT if self.total + k > MOST_STEPS else None)
        steps, self.verdict = self.walk.search(self.lines, k)
        self.total += steps
        return steps, self.verdict

    def write(self, data, room):
        """What is written into so many bytes."""
        self.refuse(faults.SHORT if len(data) > room else None)
        return data

    def write_run(self, room):
        return self.write(run_bytes(self.processors, self.setting, self.records), room)

    def write_slip(self, room):
        return self.write(slip_bytes(self.verdict, self.total), room)

    def write_paper(self, room):
        self.refuse(faults.BARE if self.verdict in (UNDECIDED, EXHAUSTED) else None)
        return self.write(paper_bytes(self.verdict, self.setting, len(self.records), self.paper_body()), room)

    def paper_body(self):
        if self.verdict == FOUND:
            return field(ORDER, bytes(self.walk.placed))
        if self.verdict == ORPHANED:
            return field(ORPHAN, bytes([self.orphan()]))
        return b"".join(map(line_bytes, self.lines.listed))
