"""The comparison: what the programs say and what the second checker says, input by input."""

import re
import subprocess
import tempfile
from collections import Counter
from pathlib import Path
from typing import NamedTuple

from . import generate, histories, logs
from .calls import calls
from .case import UNDECIDED
from .fields import NOTICE, SLIP
from .faults import WORDS
from .papers import possible_lines
from .program import STEPS, zielwart
from .lines import Lines
from .referee import VERDICTS, recheck
from .runs import under_none
from .truth import claims_in, claims_of, legal_orders, lists, untrue

CRATES = Path(__file__).resolve().parents[2] / "crates"
SECONDS = 200
VERDICT_WORDS = {0: "undecided", **VERDICTS, 4: "exhausted"}
SMALL_FOR_NEXT = 5      # up to so many records each line is looked for among all possible ones


class Outcome(NamedTuple):
    """What was seen, and where the two sides differ: what each said, or what is not true."""
    seen: Counter
    differences: list
    inputs: tuple       # the bytes that were handed over


def program(name):
    return CRATES / name / "out" / name


def ran(name, *arguments, given=b""):
    """Standard output, exit status and standard error of a program."""
    done = subprocess.run([program(name), *arguments], input=given, capture_output=True, timeout=SECONDS, check=False)
    return done.stdout, done.returncode, done.stderr


def rechecked(run, paper):
    """The line that recheck prints of a run and a paper, and its exit status."""
    with tempfile.TemporaryDirectory() as room:
        files = [Path(room, "run"), Path(room, "paper")]
        for file, data in zip(files, (run, paper)):
            file.write_bytes(data)
        line, status, _ = ran("recheck", *files)
    return line, status


def differing(what, theirs, ours):
    return [] if theirs == ours else [f"{what}: the program has {theirs!r}, the second checker {ours!r}"]


def referee_differs(run, paper):
    """The line of recheck, and where it differs from that of the second referee."""
    line, status = rechecked(run, paper)
    ours, our_status = recheck(run, paper)
    return line.decode(), differing("recheck", (line, status), (ours.encode() + b"\n", our_status))


def answer_words(answer):
    if answer[:1] == bytes([NOTICE]):
        return f"refused {answer[3]} {WORDS[answer[3]]} layer {answer[4]}"
    return f"verdict {answer[3]} {VERDICT_WORDS[answer[3]]}" if len(answer) > 3 else "nothing"


def count_in(run):
    """How many records a run has that the program accepts."""
    return (len(run) - 9) // 33


SIZES = (8, 16, 32, 48, 64)


def size_words(most):
    return f"answered runs of up to {most} records"


def size_of(count):
    return size_words(next(most for most in SIZES if count <= most))


def rules_in(answer, count):
    return {line.rule for line in claims_in(answer, count).lines}


def of_input(seed, index):
    """zielwart on some bytes, and recheck on the paper that it wrote."""
    data = generate.program_input(generate.source(seed, "input", index), index)
    answer, status, _ = ran("zielwart", given=data)
    ours = zielwart(data)
    differences = differing("zielwart", (answer.hex(), status), (ours[0].hex(), ours[1]))
    seen = Counter([answer_words(answer)])
    if answer[:1] == bytes([SLIP]):
        seen[size_of(count_in(data))] += 1
    if len(answer) > 12:
        line, more = referee_differs(data, answer[12:])
        differences += more + differing("recheck of its paper", line, f"accepted {answer[3]} {VERDICT_WORDS[answer[3]]}\n")
        seen["papers of its own accepted by recheck"] += line.startswith("accepted")
        seen.update(f"papers with a line by rule {rule}" for rule in rules_in(answer, count_in(data)))
    return Outcome(seen, differences, (data,))


def without_place(line):
    return line.partition(" place")[0].strip()


def of_pair(seed, index):
    """recheck on a run and a paper."""
    run, paper = generate.pair(generate.source(seed, "pair", index), index)
    line, differences = referee_differs(run, paper)
    return Outcome(Counter([without_place(line)]), differences, (run, paper))


def not_next(case):
    """The lines of the case that were not the least founded one when they were listed."""
    lines, possible = Lines(case.setting, case.records), possible_lines(len(case.records))
    wrong = []
    for line in case.lines.listed:
        if line != next(filter(lines.is_founded, possible), None):
            wrong.append(f"{tuple(line)} is not the next line")
        lines.append(line)
    return wrong


def of_case(way, case, legal):
    """A case of a small run against all its legal orders, and recheck on its paper."""
    differences = untrue(case.records, claims_of(case), legal)
    if len(case.records) <= SMALL_FOR_NEXT:
        differences += not_next(case)
    if case.verdict in VERDICTS:
        line, more = referee_differs(case.write_run(2 ** 15), case.write_paper(2 ** 15))
        differences += more + differing("recheck of its paper", line, f"accepted {case.verdict} {VERDICT_WORDS[case.verdict]}\n")
    seen = Counter([f"second checker, {way}: verdict {case.verdict} {VERDICT_WORDS[case.verdict]}"])
    return Outcome(seen, [f"{way}: {words}" for words in differences], ())


def of_cases(run):
    """Cases of the same records under both clocks, with lines and without."""
    for other in (run, under_none(run)):
        legal, clock = legal_orders(other.records, other.setting), other.setting.clock.word
        with_lines, without = (generate.finished(other, lines, STEPS) for lines in (generate.ALL_LINES, 0))
        yield of_case(f"{clock}, with lines", with_lines, legal)
        yield of_case(f"{clock}, without lines", without, legal)
        longer = ["the search is longer with lines"] if with_lines.total > without.total else []
        yield Outcome(Counter({f"runs with a legal order, {clock}": bool(legal), f"legal orders, {clock}": len(legal)}), longer, ())


def of_small(seed, index):
    """zielwart on a small run, and cases of the same records, against the truth."""
    run = generate.small_run(generate.source(seed, "small", index), index)
    answer, status, _ = ran("zielwart", given=run.data())
    ours = zielwart(run.data())
    differences = differing("zielwart", (answer.hex(), status), (ours[0].hex(), ours[1]))
    legal = legal_orders(run.records, run.setting)
    claims = claims_in(answer, len(run.records))
    differences += [f"zielwart: {words}" for words in untrue(run.records, claims, legal)]
    if claims.verdict == UNDECIDED and 2 * lists(len(run.records)) <= STEPS:
        differences.append("zielwart: not decided, though there are steps enough")
    seen = Counter([f"{len(run.records)} records", f"zielwart: {answer_words(answer)}"])
    for outcome in of_cases(run):
        seen, differences = seen + outcome.seen, differences + outcome.differences
    return Outcome(seen, differences, (run.data(),))


class Block(NamedTuple):
    """What was printed of a call, as far as it is counted."""
    name: str
    answer: str
    placed: bool    # whether records were placed after it


def blocks(lines):
    """The blocks that calls prints, one for each call."""
    names = [line.split()[2] for line in lines if line.startswith("call ")]
    answers = [line.split(maxsplit=1)[1] for line in lines if line.startswith("answer ")]
    placed = [line != "placed" for line in lines if line.startswith("placed")]
    return [Block(*parts) for parts in zip(names, answers, placed)]


def call_answers(lines):
    """What each call was answered, without the numbers that differ from case to case, and which lines came between searches."""
    made = blocks(lines)
    yield from (f"{block.name} {answer_kind(block.answer)}" for block in made)
    yield from ("infer ok, lines listed while records are placed" for before, block in zip(made, made[1:])
                if block.name == "infer" and before.placed and block.answer.startswith("ok lines") and block.answer.split()[2] != "0")


def answer_kind(answer):
    words = answer.split()
    if words[0] == "refused":
        return without_place(answer)
    return " ".join(["ok"] + words[words.index("verdict"):][:2] if "verdict" in words else ["ok"])


def of_history(seed, index):
    """The program calls on a history."""
    data = histories.history(generate.source(seed, "history", index), index)
    out, status, errors = ran("calls", given=data)
    lines, our_status, our_errors, case = calls(data)
    text = "".join(f"{line}\n" for line in lines).encode()
    differences = differing("calls, its exit status", status, our_status)
    if out != text:
        differences += first_difference(out.decode().splitlines(), lines)
    if our_errors is not None:
        differences += differing("calls, on standard error", errors.decode().strip(), our_errors)
    seen = Counter(call_answers(out.decode().splitlines()))
    seen[f"exit status {status}"] += 1
    if case is not None and len(case.records) <= generate.MOST_TRIED:
        differences += untrue(case.records, claims_of(case), legal_orders(case.records, case.setting))
        seen[f"at its end {case.stage()} and true, by all orders"] += 1
    return Outcome(seen, differences, (data,))


def first_difference(theirs, ours):
    """The first line in which two texts differ."""
    at = next((at for at, (one, other) in enumerate(zip(theirs, ours)) if one != other), min(len(theirs), len(ours)))
    return differing(f"calls, line {at + 1} of what it prints", theirs[at:at + 1], ours[at:at + 1])


def said_words(name, errors):
    """What a log's program said of a text or a run, without the numbers that differ from one to the other."""
    return without_place(re.sub(r"line \d+: ", "", errors.decode())) or f"{name}: written"


def stranger_words(data, errors):
    """What a refusal with 7 of a text is for; nothing of anything else."""
    if b"assemble: line" not in errors or b"refused 7 Stranger" not in errors:
        return []
    line = data.split(b"\n")[int(errors.split()[2][:-1]) - 1]
    if b"processors" in line.lower():
        return [STRANGERS[0]]
    return [STRANGERS[1] if b"processors" in data.lower() else STRANGERS[2]]


def log_differs(name, data):
    """What a log's program writes of some bytes and says of them, and where that differs from the second checker's."""
    out, status, errors = ran(name, given=data)
    ours, our_errors, our_status = {"assemble": logs.assemble, "disassemble": logs.disassemble}[name](data)
    return out, errors, differing(name, (out, errors, status), (ours, our_errors, our_status))


def comes_back(name, data, out):
    """Where the bytes of a run, or their log, are not what they were once they have gone through the other program and back."""
    if name == "assemble":
        log, _, differences = log_differs("disassemble", out)
        return differences + comes_back("disassemble", out, log)
    run, _, differences = log_differs("assemble", out)
    return differences + differing("assemble of what disassemble prints", run, data)


def of_log(seed, index):
    """assemble on a text, or disassemble on the bytes of a run, and back where either writes something."""
    name, data = generate.log_input(generate.source(seed, "log", index), index)
    out, errors, differences = log_differs(name, data)
    if out:
        differences += comes_back(name, data, out)
    return Outcome(Counter([said_words(name, errors)] + stranger_words(data, errors)), differences, (data,))


STRANGERS = tuple(f"assemble: refused 7 of {words}" for words in (
    "a line that counts 0 processors or more than 16", "a processor that the head does not count", "a processor above 15"))


def refusals(*pairs):
    return [f"refused {number} {WORDS[number]} layer {layer}" for layer, numbers in pairs for number in numbers]


def expected_calls():
    """Each refusal that each call can give, and each verdict."""
    stages = {"admit": (3, 4), "infer": (3,), "seal": (3, 4), "search": (3, 5, 13), "open": (7,), "load": (),
             "write-run": (15,), "write-slip": (15,), "write-paper": (14, 15)}
    record = (6, 7, 8, 9, 10, 11, 12)
    refused = [f"{name} {words}" for name, numbers in stages.items() for words in refusals((2, numbers))]
    refused += [f"{name} {words}" for name in ("admit", "load") for words in refusals((2, record))]
    verdicts = {"infer": (0, 2), "seal": (0, 1, 3), "search": (0, 1, 4), "load": (0, 1, 3)}
    given = [f"{name} ok verdict {verdict}" for name, them in verdicts.items() for verdict in them]
    stands = [f"at its end {stage} and true, by all orders" for stage in ("open", "sealed", "decided")]
    stands.append("infer ok, lines listed while records are placed")
    plain = [f"{name} ok" for name in ("new", "open", "admit", "write-run", "write-slip", "write-paper")]
    return refused + [f"load {words}" for words in refusals((1, (1,)), (2, (2,)))] + given + plain + stands + ["exit status 0", "exit status 1"]


def expected_of_logs():
    """Each expectation of a line, and each refusal of either program."""
    expected = [f"assemble: expected {words}" for words in logs.EXPECTATIONS] + [f"assemble: the log has more than {logs.MOST_BYTES} bytes"]
    refused = refusals((2, (6, 7, 9, 10, 11, 12)))
    of_bytes = refusals((1, (1,)), (2, (2, 6, 7, 8, 9, 10, 11, 12)))
    return (expected + [f"assemble: {words}" for words in refused] + [*STRANGERS]
            + [f"disassemble: {words}" for words in of_bytes] + ["assemble: written", "disassemble: written"])


def verdicts(who, numbers):
    return [f"{who}: verdict {number} {VERDICT_WORDS[number]}" for number in numbers]


class Part(NamedTuple):
    """A part of the comparison: its work on one index, the programs that it needs, and what must be seen."""
    work: object
    title: str
    programs: tuple
    expected: list


PARTS = {
    "input": Part(of_input, "zielwart on bytes", ("zielwart", "recheck"),
                  [f"verdict {number} {words}" for number, words in VERDICT_WORDS.items()]
                  + refusals((1, (1,)), (2, (2, 6, 7, 8, 9, 10, 11, 12))) + [size_words(most) for most in SIZES]
                  + [f"papers with a line by rule {rule}" for rule in range(1, 8)]),
    "pair": Part(of_pair, "recheck on runs and papers", ("recheck",),
                 [f"accepted {number} {words}" for number, words in VERDICTS.items()]
                 + refusals((1, (1,)), (2, (2, 6, 7, 8, 9, 10, 11, 12)), (3, (1, 2)), (4, (15, 16, 17)))),
    "small": Part(of_small, "small runs, all orders tried", ("zielwart", "recheck"),
                  [f"{count} records" for count in range(generate.MOST_TRIED + 1)] + verdicts("zielwart", (1, 2, 3, 4))
                  + verdicts("second checker, None, with lines", (1, 2, 3))
                  + verdicts("second checker, Global, without lines", (1, 3, 4))
                  + verdicts("second checker, None, without lines", (1, 3, 4))),
    "history": Part(of_history, "calls on histories", ("calls",), expected_calls()),
    "log": Part(of_log, "assemble and disassemble", ("assemble", "disassemble"), expected_of_logs()),
}
