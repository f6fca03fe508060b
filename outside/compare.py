"""Runs the stored sessions, random sheets and random frames through this program and another, and counts every difference as failed."""

import argparse
import collections
import glob
import os
import shlex
import subprocess
import sys
import tempfile
import time

import frames
import generate
import room as rules
import sheet

HERE = os.path.dirname(os.path.abspath(__file__))
LEAST = 10           # how often each reachable pair of call and reply must occur
FRAMES_A_RUN = 200   # frames handed to one run of the probe
SHOWN = 12           # differences shown in full
LONGEST_WAIT = 300   # seconds for one run of a program

# Every reply that document 01 lets a call give. 5 and 17 need lent memory (frames), as do 14, 18, ask and book;
# 19 is the sheet program's own: for the heading ("heading") and for a step line ("line").
REACHABLE = {
    "open": (0, 1, 2, 3, 4, 5),
    "scan": (0, 5, 6, 16, 17),
    "1a": (0, 5, 6, 15, 17),
    "1b": (0, 5, 6, 8, 9, 15, 17),
    "1c": (0, 5, 6, 7, 15, 17),
    "2av": (0, 5, 6, 7, 8, 9, 10, 11, 14, 15, 17),
    "2b": (0, 5, 6, 7, 8, 12, 15, 17),
    "hear": (0, 5, 6, 13, 17),
    "foreign1b": (0, 5, 6, 7, 15, 17),
    "foreign2av": (0, 5, 6, 7, 15, 17),
    "foreign2b": (0, 5, 6, 7, 15, 17),
    "foreign other": (5, 6, 17),
    "ask": (0, 5, 6, 17, 18),
    "book": (0, 5, 17),
    "heading": (19,),
    "line": (19,),
}

# Neighbouring tests that one call can meet at once; the earlier must win.
EARLY = (("17 of counts", "5"), ("5", "17 of form"), ("17 of form", "6"))
MEETINGS = {
    "open": ((1, 5), (5, 2), (2, 3), (3, 4)),
    "scan": EARLY + ((6, 16),),
    "1a": EARLY + ((6, 15),),
    "1b": EARLY + ((6, 15), (8, 9), (9, 15)),
    "1c": EARLY + ((6, 7), (7, 15)),
    "2av": EARLY + ((6, 7), (7, 8), (8, 9), (9, 10), (10, 11), (11, 14), (14, 15)),
    "2b": EARLY + ((6, 7), (7, 8), (8, 12), (12, 15)),
    "hear": EARLY + ((6, 13),),
    "foreign1b": EARLY + ((6, 7), (7, 15)),
    "foreign2av": EARLY + ((6, 7), (7, 15)),
    "foreign2b": EARLY + ((6, 7), (7, 15)),
    "foreign other": EARLY,
    "ask": EARLY,
    "book": EARLY[:2],
}


class Tally:
    """What passed, what failed, and how often each pair of call and reply was seen."""

    def __init__(self, keep: str):
        self.passed = self.failed = self.shown = 0
        self.replies = collections.Counter()
        self.meetings = collections.Counter()
        self.safe = collections.Counter()
        self.keep = keep

    def note(self, name, number, refusals) -> None:
        self.replies[(name, number)] += 1
        for place, first in enumerate(refusals):
            for second in refusals[place + 1:]:
                self.meetings[(name, first, second)] += 1

    def good(self) -> None:
        self.passed += 1

    def bad(self, title: str, *lines: str) -> None:
        self.failed += 1
        self.shown += 1
        if self.shown <= SHOWN:
            print("FAILED", title)
            for line in lines:
                print("   ", line)
        elif self.shown == SHOWN + 1:
            print("further differences are counted, not shown")

    def kept(self, name: str, given: bytes) -> str:
        os.makedirs(self.keep, exist_ok=True)
        path = os.path.join(self.keep, name)
        with open(path, "wb") as out:
            out.write(given)
        return path


# ---- sheets -------------------------------------------------------------------------------

def output_of(command, given: bytes):
    """What a program prints and what went wrong besides (nothing, as a rule)."""
    try:
        done = subprocess.run(command, input=given, stdout=subprocess.PIPE, stderr=subprocess.DEVNULL, timeout=LONGEST_WAIT)
    except subprocess.TimeoutExpired as late:
        return late.stdout or b"", "it took too long"
    return done.stdout, f"it was ended by signal {-done.returncode}" if done.returncode < 0 else ""


def first_difference(expected: bytes, got: bytes) -> str:
    wanted, seen = expected.split(b"\n"), got.split(b"\n")
    for number, (one, other) in enumerate(zip(wanted + [None] * len(seen), seen + [None] * len(wanted)), 1):
        if one != other:
            return f"output line {number}: wanted {one!r}, got {other!r}"
    return "no difference"


def compare_sheet(tally: Tally, title: str, given: bytes, expected: bytes, got: bytes, wrong: str = "") -> None:
    if got == expected and not wrong:
        tally.good()
        return
    path = tally.kept(title.replace(" ", "-") + ".sheet", given)
    tally.bad(title, wrong or first_difference(expected, got), "its sheet: " + repr(given[:1500]), "whole in " + path)


def stored_sessions(tally: Tally, command) -> None:
    for path in sorted(glob.glob(os.path.join(HERE, "sessions", "*.sheet"))):
        name = os.path.basename(path)[:-len(".sheet")]
        with open(path, "rb") as one, open(path[:-len("sheet")] + "expected", "rb") as other:
            given, expected = one.read(), other.read()
        compare_sheet(tally, f"session {name}, this program", given, expected, sheet.run_sheet(given, tally.note))
        if command:
            compare_sheet(tally, f"session {name}", given, expected, *output_of(command, given))


def random_sheets(tally: Tally, command, count: int, every: int) -> None:
    for number, given in enumerate(generate.sheets(count)):
        expected = sheet.run_sheet(given, tally.note)
        if command and number % every == 0:
            compare_sheet(tally, f"random sheet {number}", given, expected, *output_of(command, given))


# ---- frames -------------------------------------------------------------------------------

def name_of(frame: frames.Frame) -> str:
    if frame.call == frames.FOREIGN:
        kinds = {rules.KIND_1B: "foreign1b", rules.KIND_2AV: "foreign2av", rules.KIND_2B: "foreign2b"}
        return kinds.get(frame.arguments[0], "foreign other")
    return frames.CALL_NAMES[frame.call]


def house_out_of_form(house: frames.HouseImage) -> bool:
    """Tables, intake or marks out of form, whatever the areas hold."""
    quorums = [rules.members(mask) for mask in house.quorum_table[:house.quorum_count]]
    weak = [rules.members(mask) for mask in house.weak_table[:house.weak_count]]
    intake = frames.pieces(house.intake, frames.SCAN.size, house.scanned)
    return (any(applies() for _, applies in rules.table_tests(house.nodes, house.faulty, quorums, weak))
            or len(set(intake)) < len(intake) or house.marks >= 1 << house.nodes)


def limits_broken(house: frames.HouseImage, frame: frames.Frame) -> bool:
    """A field outside its limits, judged by the house record's counts alone."""
    if frame.call == frames.BOOK:
        return False
    bare = rules.Room(house.nodes, house.faulty, house.rows, house.capacity, [], [],
                      intake=[(0, 0)] * house.scanned, board=[rules.Post1a(1, 0)] * house.messages)
    return frames.build_call(bare, frame).tests[0][1]()


def early_meetings(frame: frames.Frame, number: int):
    """Which of the tests before the call's own apply, in their order."""
    house = frames.HouseImage.read(frame.memory.house)
    short = not frames.lengths_good(house, frame)
    if not house.counts_in_limits():
        return ["17 of counts"] + (["5"] if short else [])
    out_of_form = house_out_of_form(house) if short else number == 17
    return ((["5"] if short else []) + (["17 of form"] if out_of_form else [])
            + (["6"] if number in (17, 6) and limits_broken(house, frame) else []))


def note_safety(tally: Tally, frame: frames.Frame) -> None:
    """By which part a 2av's tube was known safe, where the reply turns on it."""
    room = frames.room_from(frames.HouseImage.read(frame.memory.house), frame.memory)
    row, ballot, node, tube = frame.arguments[:4]
    posts = rules.heard_1b(room, node, row, ballot)
    if rules.safe_outright(room, posts):
        tally.safe["by (i)"] += 1
    elif rules.known_safe(room, node, row, ballot, tube):
        tally.safe["by (ii) alone"] += 1
    else:
        tally.safe["not"] += 1


def expected_reply(tally: Tally, frame: frames.Frame) -> bytes:
    name = name_of(frame)
    reply, after = frames.settle_frame(frame, lambda number, refusals: tally.note(name, number, refusals))
    if reply.number != 0 and after != frame.memory:
        tally.bad("a refusal of this program changed memory")
    if frame.call != frames.OPEN:
        early = early_meetings(frame, reply.number)
        for first, second in zip(early, early[1:]):
            tally.meetings[(name, first, second)] += 1
    if name == "2av" and reply.number in (0, 11, 14, 15):
        note_safety(tally, frame)
    return frames.reply_image(reply, after)


def tell_frame(frame: frames.Frame, expected: bytes, got: bytes):
    lines = [f"call {name_of(frame)}, arguments {frame.arguments}",
             f"wanted answer {frames.ANSWER.unpack(expected[:13])}"]
    if len(got) < len(expected):
        return lines + [f"the program ended: {len(got)} of {len(expected)} bytes of the reply"]
    lines.append(f"got    answer {frames.ANSWER.unpack(got[:13])}")
    place = frames.ANSWER.size
    for name in ("house", "board", "cells", "heard", "book", "waiting"):
        length = len(getattr(frame.memory, name))
        one, other = expected[place:place + length], got[place:place + length]
        if one != other:
            where = next(k for k in range(length) if one[k] != other[k])
            lines.append(f"{name} differs first at byte {where}: wanted {one[where]}, got {other[where]}")
        place += length
    return lines


def compare_run(tally: Tally, command, first: int, some) -> None:
    """Some frames in one run of the probe; where it ends early, a new run takes the frames after that."""
    while some:
        got, wrong = output_of(command, b"".join(image for _, image, _ in some))
        place = 0
        for number, (frame, image, expected) in enumerate(some):
            part = got[place:place + len(expected)]
            place += len(expected)
            if part == expected:
                tally.good()
                continue
            path = tally.kept(f"frame-{first + number}.hex", (image.hex() + "\n" + expected.hex() + "\n").encode())
            tally.bad(f"frame {first + number}", *tell_frame(frame, expected, part), "frame and wanted reply in " + path)
            if len(part) < len(expected):
                break
        else:
            if len(got) > place or wrong:
                tally.bad(f"frames {first} to {first + number}", wrong or f"{len(got) - place} bytes too many")
            return
        first, some = first + number + 1, some[number + 1:]


def random_frames(tally: Tally, command, size: float) -> int:
    batch, number = [], 0
    for number, frame in enumerate(generate.all_frames(size=size), 1):
        expected = expected_reply(tally, frame)
        if not command:
            continue
        batch.append((frame, frames.frame_image(frame), expected))
        if len(batch) == FRAMES_A_RUN:
            compare_run(tally, command, number - len(batch), batch)
            batch = []
    if batch:
        compare_run(tally, command, number - len(batch), batch)
    return number


def ends_of_input(tally: Tally, command) -> None:
    """Frames that cannot be held, and input that stops inside a frame, end the probe after the replies before."""
    good = frames.frame_image(next(generate.all_frames()))
    expected = frames.answer(good)
    cases = [("a frame that cannot be held, number %d" % k, good + image + good, expected)
             for k, image in enumerate(generate.ending_frames())]
    cases += [("a frame cut by %d bytes" % cut, good + good[:-cut], expected) for cut in (1, 600, len(good) - 1)]
    cases += [("no frame at all", b"", b"")]
    for title, given, wanted in cases:
        if output_of(command, given)[0] == wanted:
            tally.good()
        else:
            path = tally.kept(title.replace(" ", "-") + ".hex", (given.hex() + "\n").encode())
            tally.bad(title, "in " + path)


# ---- the whole ----------------------------------------------------------------------------

def judge_coverage(tally: Tally) -> None:
    for name, numbers in REACHABLE.items():
        print(f"{name}: " + ", ".join(f"{number} x {tally.replies[(name, number)]}" for number in numbers))
        for number in numbers:
            if tally.replies[(name, number)] < LEAST:
                tally.bad(f"{name} with reply {number} occurred {tally.replies[(name, number)]} times only")
    for name, number in sorted(tally.replies):
        if number not in REACHABLE.get(name, ()):
            tally.bad(f"{name} gave {number}, which the paper does not let it give")
    print("tests that met in one call:")
    for name, pairs in MEETINGS.items():
        print(f"{name}: " + ", ".join(f"{one} before {two} x {tally.meetings[(name, one, two)]}" for one, two in pairs))
        for one, two in pairs:
            if tally.meetings[(name, one, two)] < LEAST:
                tally.bad(f"{name}: {one} met {two} {tally.meetings[(name, one, two)]} times only")
    print("tube of a 2av known safe: " + ", ".join(f"{part} x {tally.safe[part]}" for part in ("by (i)", "by (ii) alone", "not")))
    for part in ("by (i)", "by (ii) alone", "not"):
        if tally.safe[part] < LEAST:
            tally.bad(f"known safe {part} occurred {tally.safe[part]} times only")


def main() -> int:
    parser = argparse.ArgumentParser(description=__doc__)
    parser.add_argument("--sheet", help="command of the other sheet program")
    parser.add_argument("--probe", help="command of the other frames program")
    parser.add_argument("--self", action="store_true", dest="itself", help="compare this program with itself run as processes")
    parser.add_argument("--sheets", type=int, default=2000, help="how many random sheets")
    parser.add_argument("--size", type=float, default=1.0, help="how many random frames, 1 being about 5,800")
    parser.add_argument("--every", type=int, default=1, help="run the other sheet program on every so many random sheets")
    parser.add_argument("--keep", default=os.path.join(tempfile.gettempdir(), "outside-failed"), help="folder for failed inputs")
    given = parser.parse_args()

    sheet_command = shlex.split(given.sheet) if given.sheet else None
    probe_command = shlex.split(given.probe) if given.probe else None
    every = given.every
    if given.itself:
        sheet_command = [sys.executable, os.path.join(HERE, "sheet.py")]
        probe_command = [sys.executable, os.path.join(HERE, "frames.py")]
        every = 10

    tally = Tally(given.keep)
    began = time.time()

    def said(what: str) -> None:
        nonlocal began
        print(f"{what}: {time.time() - began:.1f} s", flush=True)
        began, tally.shown = time.time(), 0

    stored_sessions(tally, sheet_command)
    said("stored sessions")
    random_sheets(tally, sheet_command, given.sheets, every)
    said(f"{given.sheets} random sheets")
    count = random_frames(tally, probe_command, given.size)
    said(f"{count} random frames")
    if probe_command:
        ends_of_input(tally, probe_command)
    if given.sheets >= 2000 and given.size >= 1:
        judge_coverage(tally)
    else:
        print("a short run: how often each reply occurred is not judged")
    print(f"{tally.passed} passed, {tally.failed} failed")
    return 1 if tally.failed else 0


if __name__ == "__main__":
    raise SystemExit(main())
