"""The sheet program of document 01: reads a sheet from standard input and prints its answers, its book and its totals."""

import re
import sys
from typing import List, Optional, Tuple

if __package__ in (None, ""):
    import room as rules
else:
    from . import room as rules

LONGEST_LINE = 200
HIGHEST_NUMBER = 4294967295
NUMBER = rb"(0|[1-9][0-9]*)"
PAIRS = rb"((?:(?:0|[1-9][0-9]*):(?:0|[1-9][0-9]*)(?:,(?:0|[1-9][0-9]*):(?:0|[1-9][0-9]*))*)?)"
BAD = b"answer=19\n"

STEPS = {
    "scan": (rules.scan, ("station", "serial")),
    "1a": (rules.send_1a, ("row", "ballot")),
    "1b": (rules.send_1b, ("row", "ballot", "node")),
    "1c": (rules.send_1c, ("row", "ballot", "tube")),
    "2av": (rules.send_2av, ("row", "ballot", "node", "tube")),
    "2b": (rules.send_2b, ("row", "ballot", "node", "tube")),
    "hear": (rules.hear, ("node", "message")),
    "foreign2av": (rules.foreign_2av, ("row", "ballot", "node", "tube")),
    "foreign2b": (rules.foreign_2b, ("row", "ballot", "node", "tube")),
    "foreign1b": (rules.foreign_1b, ("row", "ballot", "node", "mbal", "mval", "pairs")),
}


def step_form(name: str, fields: Tuple[str, ...]):
    parts = [b"do=" + name.encode()]
    parts += [field.encode() + b"=" + (PAIRS if field == "pairs" else NUMBER) for field in fields]
    return re.compile(b" ".join(parts))


STEP_FORMS = {name: step_form(name, fields) for name, (_, fields) in STEPS.items()}
HEADING_FORMS = {name: re.compile(name.encode() + b"=" + NUMBER)
                 for name in ("nodes", "faulty", "rows", "capacity", "quorum", "weak")}


class BadLine(Exception):
    """A line of no known form, or with a number too large to be handed to a call."""


def number_of(digits: bytes) -> int:
    number = int(digits)
    if number > HIGHEST_NUMBER:
        raise BadLine
    return number


def pairs_of(text: bytes) -> List[Tuple[int, int]]:
    pairs = []
    for part in text.split(b",") if text else []:
        tube, ballot = part.split(b":")
        pairs.append((number_of(tube), number_of(ballot)))
    return pairs


def lines_of(sheet: bytes) -> List[bytes]:
    """The lines without their newlines; the last may lack its own."""
    pieces = sheet.split(b"\n")
    return pieces[:-1] if pieces[-1] == b"" else pieces


def heading_number(name: str, line: bytes) -> Optional[int]:
    """The number of a heading line of this sort, or None for any other line."""
    found = HEADING_FORMS[name].fullmatch(line)
    if found is None or len(line) > LONGEST_LINE:
        return None
    number = int(found.group(1))
    return number if number <= HIGHEST_NUMBER else None


def read_heading(lines: List[bytes]):
    """The four counts, the two lists and the lines left over; BadLine if a heading line is bad or missing."""
    at = 0

    def run_of(name: str) -> List[int]:
        nonlocal at
        numbers = []
        while at < len(lines):
            number = heading_number(name, lines[at])
            if number is None:
                break
            numbers.append(number)
            at += 1
        if not numbers:
            raise BadLine
        return numbers

    counts = []
    for name in ("nodes", "faulty", "rows", "capacity"):
        number = heading_number(name, lines[at]) if at < len(lines) else None
        if number is None:
            raise BadLine
        counts.append(number)
        at += 1
    quorums = run_of("quorum")
    weak = run_of("weak")
    return counts, quorums, weak, lines[at:]


def read_step(line: bytes):
    """The name of a step and the numbers its call takes; BadLine for any other line."""
    if len(line) > LONGEST_LINE:
        raise BadLine
    for name, form in STEP_FORMS.items():
        found = form.fullmatch(line)
        if found is None:
            continue
        if name == "foreign1b":
            numbers = [number_of(digits) for digits in found.groups()[:-1]]
            pairs = pairs_of(found.groups()[-1])
            return name, (*numbers, len(pairs), pairs)
        return name, tuple(number_of(digits) for digits in found.groups())
    raise BadLine


def answer_line(name: str, reply: rules.Reply) -> bytes:
    if name == "scan" and reply.number == 0:
        return b"answer=0 tube=%d\n" % reply.values
    return b"answer=%d\n" % reply.number


def closing_lines(room: rules.Room) -> List[bytes]:
    book = rules.read_book(room)
    out = []
    for line in book.rows:
        if line.void:
            out.append(b"row=%d void=%d\n" % (line.row, line.tube))
        else:
            out.append(b"row=%d tube=%d station=%d serial=%d\n" % (line.row, line.tube, *room.intake[line.tube - 1]))
    for tube in book.waiting:
        out.append(b"waiting=%d station=%d serial=%d\n" % (tube, *room.intake[tube - 1]))
    if book.why == rules.SPLIT:
        out.append(b"split=%d\n" % (len(book.rows) + 1))
    void = sum(1 for line in book.rows if line.void)
    out.append(b"scanned=%d entered=%d void=%d waiting=%d\n"
               % (len(room.intake), len(book.rows) - void, void, len(book.waiting)))
    return out


def run_sheet(sheet: bytes, note=None) -> bytes:
    """What the sheet program prints; `note` is told the name, the number and all refusals that apply of each call."""
    note = note or (lambda name, number, refusals: None)
    try:
        counts, quorums, weak, steps = read_heading(lines_of(sheet))
    except BadLine:
        note("heading", 19, [19])
        return BAD
    reply, room = rules.open_room(*counts, quorums, weak)
    note("open", reply.number, rules.applying(rules.opening(*counts, quorums, weak)))
    out = [answer_line("open", reply)]
    if reply.number != 0:
        return out[0]
    for line in steps:
        try:
            name, numbers = read_step(line)
        except BadLine:
            note("line", 19, [19])
            out.append(BAD)
            continue
        build, _ = STEPS[name]
        call = build(room, *numbers)
        refusals = rules.applying(call)
        reply = rules.settle(call)
        note(name, reply.number, refusals)
        out.append(answer_line(name, reply))
    return b"".join(out + closing_lines(room))


def main() -> None:
    sys.stdout.buffer.write(run_sheet(sys.stdin.buffer.read()))


if __name__ == "__main__":
    main()
