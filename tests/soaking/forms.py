"""The form of what each program may write and how it may end, by docs/FORMAT.md, docs/REFUSALS.md and docs/CALLS.md."""

import re
from xml.dom import minidom

from second.faults import WORDS

VERDICTS = ("undecided", "order", "opposed lines", "orphan", "exhausted")
OF_BYTES = (1, 2, 6, 7, 8, 9, 10, 11, 12)
COUNTED = 4096
MOST_STEPS = 2**62


class Wrong(Exception):
    """What was written or how it ended is not of the right form."""


def need(holds, what):
    if not holds:
        raise Wrong(what)


def fields(data):
    """Tag and content of each field; the bytes are used up by them."""
    at, found = 0, []
    while at < len(data):
        need(at + 3 <= len(data), "a field is cut short")
        end = at + 3 + int.from_bytes(data[at + 1 : at + 3], "big")
        need(end <= len(data), "a field is cut short")
        found.append((data[at], data[at + 3 : end]))
        at = end
    return found


def paper(verdict, model, parts):
    """A paper that the checker wrote, field by field."""
    need(len(parts) >= 2 and parts[0][0] == 0x10 and len(parts[0][1]) == 4, "no head of a paper")
    need(parts[-1] == (0x1F, b""), "no end of a paper")
    count = parts[0][1][3]
    need(tuple(parts[0][1]) == (verdict, model, 1, count) and count <= 64, "the head of the paper")
    body = parts[1:-1]
    if verdict == 1:
        need(len(body) == 1 and body[0][0] == 0x12 and sorted(body[0][1]) == list(range(1, count + 1)), "the order")
    elif verdict == 3:
        need(len(body) == 1 and body[0][0] == 0x13 and len(body[0][1]) == 1 and 1 <= body[0][1][0] <= count, "the orphan")
    else:
        need(all(tag == 0x11 and len(content) == 4 for tag, content in body), "a field that is no line")
        lines([content for _, content in body], count)


def lines(listed, count):
    """Lines of which no pair stands twice, and only the last is opposed to one before it."""
    pairs = set()
    for at, (rule, first, second, third) in enumerate(listed):
        need(1 <= rule <= 7 and 1 <= first <= count and 1 <= second <= count and first != second, "a line's numbers")
        need(1 <= third <= count if rule in (5, 7) else third == 0, "a line's third")
        need((first, second) not in pairs, "a pair stands twice")
        need(((second, first) in pairs) == (at == len(listed) - 1), "which line is opposed")
        pairs.add((first, second))
    need(listed, "no lines")


def told(name, status, errors):
    """Exit status 0 or 1; where it is 1, one line on standard error says why, else nothing does."""
    need(status in (0, 1), f"the exit status is {status}")
    if status == 0:
        need(errors == b"", "words on standard error")
    else:
        need(re.fullmatch(rb"%s: [^\n]+\n" % name.encode(), errors), "no one line on standard error")


def zielwart(sent, status, out, errors):
    told("zielwart", status, errors)
    if status == 1:
        return notice(sent, out)
    parts = fields(out)
    need(parts and parts[0][0] == 0x1D and len(parts[0][1]) == 9, "no slip")
    verdict, steps = parts[0][1][0], int.from_bytes(parts[0][1][1:], "big")
    need(verdict <= 4 and steps <= 1_000_000 and (verdict or steps == 1_000_000), "the numbers in the slip")
    if verdict in (1, 2, 3):
        paper(verdict, sent[4], parts[1:])
    else:
        need(len(parts) == 1, "bytes behind the slip")
    return VERDICTS[verdict]


def notice(sent, out):
    parts = fields(out)
    need(len(parts) == 1 and parts[0][0] == 0x1E and len(parts[0][1]) == 6, "no notice")
    refusal, layer, place = parts[0][1][0], parts[0][1][1], int.from_bytes(parts[0][1][2:], "big")
    need(refusal in OF_BYTES and layer == (1 if refusal == 1 else 2), "the refusal or its layer")
    need(place <= min(len(sent), COUNTED), "the place")
    return WORDS[refusal]


HEADINGS = {"0": "Undecided: ", "1": "A legal order: ", "2": "No legal order: ", "3": "No legal order: ", "4": "No legal order: "}


def explain(sent, status, out, errors):
    told("explain", status, errors)
    text = out.decode("ascii")
    need(text.endswith("\n") and (re.search(r"^  refusal: ", text, re.M) is not None) == (status == 1), "a refusal and the exit status")
    need(re.search(r"^  bytes: %d(, which|$)" % min(len(sent), COUNTED), text, re.M), "how many bytes count")
    found = re.findall(r"^Verdict: ([0-4]), (.*)$" if status == 0 else r"^  refusal: (\d+), (\w+)$", text, re.M)
    need(len(found) == 1, "no one verdict or refusal")
    number, word = found[0]
    need(word == (VERDICTS[int(number)] if status == 0 else WORDS.get(int(number))), "the word of a number")
    need(text.startswith("Refused: " if status == 1 else HEADINGS[number]), "the first line")
    need(status == 0 or errors.startswith(f"explain: the run is refused {number} {word} layer ".encode()), "the line on standard error")
    return word


def refused(name, out, errors):
    """Nothing is written of what is refused; gives why, by what its line begins with."""
    need(out == b"", "bytes on standard output")
    line = errors.decode("ascii").removeprefix(f"{name}: ")
    found = re.match(r"(?:line \d+: |the run is )?(?:refused (\d+) (\w+) layer [12] place \d+|(expected|the log has more) )", line)
    need(found, "the line on standard error")
    need(not found[1] or found[2] == WORDS.get(int(found[1])), "the word of a refusal")
    return found[2] or found[3]


def assemble(sent, status, out, errors):
    told("assemble", status, errors)
    if status == 1:
        return refused("assemble", out, errors)
    head, *records, end = fields(out)
    need(head[0] == 1 and len(head[1]) == 3 and 1 <= head[1][0] <= 16, "the head of a run")
    need(len(records) <= 64 and all(tag == 2 and len(content) == 30 for tag, content in records), "the records of a run")
    need(end == (3, b""), "the end of a run")
    return "a run"


STAMPED = r"(?:M\[[0-9a-f]+\] (?::=|==) \d+|sync)(?: @ \d+:\d+)?"


def disassemble(sent, status, out, errors):
    told("disassemble", status, errors)
    if status == 1:
        return refused("disassemble", out, errors)
    text = rf"model (?:SC|Godson)\nclock (?:global|none)\nprocessors \d+\n(?:\d+: {STAMPED}\n)*"
    need(re.fullmatch(text, out.decode("ascii")), "a line of a log")
    return "a log"


def draw(sent, status, out, errors):
    told("draw", status, errors)
    if status == 1:
        return refused("draw", out, errors)
    need(minidom.parseString(out).documentElement.tagName == "svg", "no picture")
    found = re.findall(r">Verdict ([0-4]), ([a-z ]+)\.", out.decode("ascii"))
    need(len(found) == 1 and found[0][1] == VERDICTS[int(found[0][0])], "no one verdict")
    return found[0][1]


def recheck(sent, status, out, errors):
    need(status in (0, 1), f"the exit status is {status}")
    need(errors == b"", "words on standard error")
    line = out.decode("ascii")
    accepted = re.fullmatch(r"accepted ([123]) (.*)\n", line)
    if accepted:
        need(status == 0 and accepted[2] == VERDICTS[int(accepted[1])], "the word of the verdict, or the exit status")
        return "accepted " + accepted[2]
    refused = re.fullmatch(r"refused (\d+) (\w+) layer ([1-4]) place (\d+)\n", line)
    need(refused and status == 1, "neither accepted nor refused, or the exit status")
    need(int(refused[1]) in (*OF_BYTES, 15, 16, 17) and refused[2] == WORDS.get(int(refused[1])), "the refusal")
    need(int(refused[4]) <= max(map(len, sent)), "the place")
    return refused[2]


PROGRESS = r"%s \d+ verdict (0|1|2|3 orphan \d+|4)"
CLOSED = r"ok verdict (0|1|2|3 orphan \d+|4)"
WROTE = r"ok bytes \d+"
ANSWERS = {
    "new": "ok",
    "open": "ok",
    "admit": r"ok record \d+",
    "infer": "ok " + PROGRESS % "lines",
    "search": "ok " + PROGRESS % "steps",
    "seal": CLOSED,
    "load": CLOSED,
    "write-run": WROTE,
    "write-slip": WROTE,
    "write-paper": WROTE,
}
REFUSED = r"refused (\d+) (\w+) layer [12] place \d+"
STATE = r"state (open|sealed|decided) verdict (0|1|2|3 orphan \d+|4) processors (\d+) records (\d+) mark (none|\d+) total (\d+)"


def calls(sent, status, out, errors):
    told("calls", status, errors)
    rows = out.decode("ascii").split("\n")
    need(rows.pop() == "", "the last line has no end")
    need(rows or status == 1, "nothing was told")
    rows, number = iter(rows), 0
    for row in rows:
        call = re.fullmatch(r"call (\d+) ([a-z-]+)", row)
        need(call and int(call[1]) == number and (call[2] == "new") == (number == 0) and call[2] in ANSWERS, "the heading of a call")
        verdict = one_call(call[2], rows)
        number += 1
    if number == 0:
        return "no calls made"
    return ("all made: " if status == 0 else "some made: ") + VERDICTS[int(verdict)]


def one_call(name, rows):
    """The lines behind the heading of a call; gives the number of the verdict that the case then has."""
    answer = next(rows, "")
    refused = re.fullmatch("answer " + REFUSED, answer)
    need(refused or re.fullmatch("answer " + ANSWERS[name], answer), "an answer")
    need(not refused or refused[2] == WORDS.get(int(refused[1])), "the word of a refusal")
    if name.startswith("write"):
        need(re.fullmatch("bytes( ([0-9A-F]{2})+)?", next(rows, "")), "the lent bytes")
    state = re.fullmatch(STATE, next(rows, ""))
    need(state and (state[1] == "decided") == (state[2] != "0"), "the state")
    records = int(state[4])
    need(1 <= int(state[3]) <= 16 and records <= 64 and int(state[6]) <= MOST_STEPS, "the numbers of the state")
    need(state[5] == "none" or 1 <= int(state[5]) <= records, "the mark")
    listed = re.fullmatch(r"lines((?: [1-7],\d+,\d+,\d+)*)", next(rows, ""))
    need(listed and len(listed[1].split()) <= records * (records - 1), "the lines")
    placed = re.fullmatch(r"placed((?: \d+)*)", next(rows, ""))
    need(placed is not None, "the placed records")
    placed = [int(number) for number in placed[1].split()]
    need(len(set(placed)) == len(placed) and all(1 <= number <= records for number in placed), "the placed records")
    return state[2][0]
