"""Makes random sheets and frames from fixed seeds: whole runs, unruly stations, edges, damaged memory and refusals that meet."""

import itertools
import random
import sys
from dataclasses import replace
from typing import Iterator, List, Optional, Tuple

if __package__ in (None, ""):
    import frames
    import room as rules
    import sheet
else:
    from . import frames, sheet
    from . import room as rules

LARGEST = 4294967295
Step = Tuple[str, tuple]  # a step's name and its numbers, a foreign 1b ending in its list of pairs


# ---- rooms --------------------------------------------------------------------------------

def all_sets(nodes: int, size: int) -> List[int]:
    return [frames.mask_of(group) for group in itertools.combinations(range(nodes), size)]


SMALL_ROOMS = [
    (1, 0, [1], [1]),
    (2, 0, [3], [1, 2]),
    (2, 0, [1], [2, 3]),
    (3, 0, [3, 5, 6], [1, 2, 4]),
    (3, 1, [7], [3, 5, 6]),
    (4, 1, [7, 11, 13, 14], [3, 5, 6, 9, 10, 12]),
    (4, 0, [7, 11, 13, 14], [1, 2, 4, 8]),
    (4, 1, [7, 11, 13, 14], [3, 5, 6, 9, 10, 12]),
]
LARGE_ROOMS = [
    (5, 1, all_sets(5, 4), all_sets(5, 2)),
    (7, 2, all_sets(7, 5), all_sets(7, 3)),
    (8, 1, all_sets(8, 5), all_sets(8, 2)),
    (8, 7, [255], [255]),
    (6, 1, [7 + 8, 7 + 16, 7 + 32, 7 + 8, 63], [3, 48, 63]),
]


def any_room(rng) -> tuple:
    pick = rng.random()
    if pick < 0.8:
        return rng.choice(SMALL_ROOMS)
    if pick < 0.9:
        return rng.choice(LARGE_ROOMS)
    return random_room(rng)


def random_room(rng) -> tuple:
    """A room of random sets that opens."""
    while True:
        nodes, faulty = rng.randint(1, 8), rng.choice([0, 0, 1, 1, 2, 3])
        heavy = [rng.randrange(1, 2 ** nodes) | rng.randrange(2 ** nodes) for _ in range(rng.randint(1, 4))]
        weak = [rng.randrange(1, 2 ** nodes) | rng.randrange(2 ** nodes) for _ in range(rng.randint(1, 4))]
        reply, _ = rules.open_room(nodes, faulty, 1, 1, heavy, weak)
        if reply.number == 0:
            return nodes, faulty, heavy, weak


def open_with(room: tuple, rows: int, capacity: int) -> rules.Room:
    nodes, faulty, quorums, weak = room
    reply, opened = rules.open_room(nodes, faulty, rows, capacity, quorums, weak)
    assert reply.number == 0
    return opened


# ---- fields, now and then outside their limits --------------------------------------------

def seldom(rng, one_in: int) -> bool:
    return rng.randrange(one_in) == 0


def some_row(rng, room) -> int:
    if seldom(rng, 14):
        return rng.choice([0, room.rows + 1, 65, 255, 256, 256 + rng.randint(1, room.rows), LARGEST])
    return min(rng.randint(1, room.rows), rng.randint(1, room.rows))


def some_ballot(rng) -> int:
    if seldom(rng, 14):
        return rng.choice([16, 17, 255, 256, 257, LARGEST])
    return rng.choice([0, 0, 1, 1, 2, 2, 3, 4, rng.randint(0, 15), 15])


def some_node(rng, room) -> int:
    if seldom(rng, 14):
        return rng.choice([room.nodes, 8, 255, 256, 256 + room.nodes - 1, LARGEST])
    return rng.randrange(room.nodes)


def some_tube(rng, room) -> int:
    scanned = len(room.intake)
    if seldom(rng, 10):
        return rng.choice([0, 65, 255, 256, 257, LARGEST])
    if seldom(rng, 10) or scanned == 0:
        return rng.choice([min(scanned + 1, 64), 64])
    return min(rng.randint(1, scanned), rng.randint(1, scanned))


def some_pairs(rng, room, most=16) -> list:
    """Mostly ascending pairs of tubes on intake, at times out of order, too many or outside their limits."""
    scanned = max(1, len(room.intake))
    count = rng.choice([0, 0, 1, 1, 2, 2, 3, rng.randint(0, most)])
    ballots = rng.choice([3, 5, 16])
    pairs = {(rng.randint(1, min(scanned, rng.choice([2, 4, 64]))), rng.randrange(ballots)) for _ in range(count)}
    ordered = sorted(pairs, key=lambda pair: (pair[1], pair[0]))
    if seldom(rng, 12) and ordered:
        place = rng.randrange(len(ordered))
        tube, ballot = ordered[place]
        ordered[place] = rng.choice([(0, ballot), (65, ballot), (tube, 16), (tube, 255), (min(64, scanned + 1), ballot)])
    if seldom(rng, 12):
        rng.shuffle(ordered)
    if seldom(rng, 20) and ordered:
        ordered.append(ordered[-1])
    return ordered


def some_mbal(rng) -> int:
    if seldom(rng, 14):
        return rng.choice([16, 17, 254, 256, 511, LARGEST])
    return rng.choice([255, 255, 0, 0, 1, 1, 2, rng.randint(0, 15)])


def some_mval(rng, room) -> int:
    return 0 if seldom(rng, 2) else some_tube(rng, room)


# ---- steps --------------------------------------------------------------------------------

def honest_noise(rng, room) -> Step:
    name = rng.choice(["1a", "1b", "1b", "1c", "2av", "2av", "2b", "2b", "hear", "hear"])
    row, ballot = some_row(rng, room), some_ballot(rng)
    if name == "1a":
        return name, (row, ballot)
    if name == "1b":
        return name, (row, ballot, some_node(rng, room))
    if name == "1c":
        return name, (row, ballot, some_tube(rng, room))
    if name == "hear":
        return name, (some_node(rng, room), some_message(rng, room))
    return name, (row, ballot, some_node(rng, room), some_tube(rng, room))


def some_message(rng, room) -> int:
    if seldom(rng, 10) or not room.board:
        return rng.choice([len(room.board), len(room.board) + 1, 1023, 1024, 65536, LARGEST])
    return rng.randrange(len(room.board))


def foreign_noise(rng, room, unruly) -> Step:
    node = rng.choice(unruly) if unruly and not seldom(rng, 10) else some_node(rng, room)
    row, ballot = some_row(rng, room), some_ballot(rng)
    name = rng.choice(["foreign1b", "foreign1b", "foreign2av", "foreign2b"])
    if name == "foreign1b":
        return name, (row, ballot, node, some_mbal(rng), some_mval(rng, room), some_pairs(rng, room))
    return name, (row, ballot, node, some_tube(rng, room))


def scan_noise(rng, room) -> Step:
    if room.intake and seldom(rng, 3):
        return "scan", rng.choice(room.intake)
    if seldom(rng, 8):
        return "scan", (rng.choice([256, 257, 1000, LARGEST]), rng.choice([0, 1, LARGEST]))
    return "scan", (rng.choice([0, 1, 3, 255]), rng.choice([0, 1, 70, LARGEST, rng.randrange(1000)]))


def echo_of(room, step: Step) -> Optional[Step]:
    """The foreign post that brings the very message of an honest step, before the step itself."""
    name, numbers = step
    if name == "1b" and numbers[2] < room.nodes and 1 <= numbers[0] <= room.rows:
        row, ballot, node = numbers
        cell = room.cells[(node, row)]
        return "foreign1b", (row, ballot, node, frames.written_ballot(cell.max_vbal),
                             frames.written_tube(cell.max_vval), list(cell.pairs))
    if name in ("2av", "2b"):
        return "foreign" + name, numbers
    return None


def number_of_1b(room, row, ballot, node) -> int:
    numbers = [k for k, post in enumerate(room.board)
               if isinstance(post, rules.Post1b) and (post.row, post.ballot, post.node) == (row, ballot, node)]
    return numbers[-1] if numbers else len(room.board)


def tube_for(rng, room, row, ballot, node) -> int:
    """Mostly a tube known safe and in no other row yet, else any."""
    scanned = len(room.intake)
    if scanned == 0:
        return 1
    tubes = [tube for tube in range(1, min(scanned, 12) + 1) if rules.known_safe(room, node, row, ballot, tube)]
    if tubes and not seldom(rng, 6):
        return tubes[(row - 1) % len(tubes)] if not seldom(rng, 4) else rng.choice(tubes)
    return rng.randint(1, scanned)


def ballot_of_row(rng, room, row, ballot) -> Iterator[Step]:
    """One ballot's honest steps, in order, often broken off; each step is thought of only when its turn comes."""
    quorum = sorted(rng.choice(room.quorums))
    extra = [node for node in range(room.nodes) if node not in quorum and seldom(rng, 3)]
    askers = quorum + extra
    relayers = [node for node in quorum + extra if not seldom(rng, 12)] or quorum
    rng.shuffle(askers)
    rng.shuffle(relayers)
    stop_relays = rng.randint(0, len(relayers)) if seldom(rng, 3) else len(relayers)
    stop_votes = rng.randint(0, len(relayers)) if seldom(rng, 2) else len(relayers)
    yield "1a", (row, ballot)
    for node in askers:
        yield "1b", (row, ballot, node)
    for node in relayers:
        for sender in rng.sample(askers, len(askers)):
            if not seldom(rng, 40):
                yield "hear", (node, number_of_1b(room, row, ballot, sender))
    tube = tube_for(rng, room, row, ballot, relayers[0])
    yield "1c", (row, ballot, tube)
    for node in relayers[:stop_relays]:
        yield "2av", (row, ballot, node, tube)
    for node in relayers[:stop_votes]:
        yield "2b", (row, ballot, node, tube)


def mob_votes(rng, room, row) -> Iterator[Step]:
    """More unruly stations than the room can bear: a whole quorum votes for a tube, and perhaps for a second."""
    for tube in sorted({rng.randint(1, max(1, len(room.intake))) for _ in range(2)}):
        ballot = rng.randint(0, 3)
        for node in sorted(rng.choice(room.quorums)):
            yield "foreign2b", (row, ballot, node, tube)


def run(rng, room, noise=0.15, unruly=(), mob=False, scans=3) -> Iterator[Step]:
    """Steps without end; the one who takes them settles each on the room before asking for the next."""
    for serial in range(scans):
        yield "scan", (rng.choice([3, 4]), serial)
    row, ballot = 1, rng.choice([0, 0, 0, 1])
    while True:
        steps = ballot_of_row(rng, room, row, ballot)
        if mob and seldom(rng, 2):
            steps = mob_votes(rng, room, row)
        for step in steps:
            while rng.random() < noise:
                pick = rng.random()
                yield (foreign_noise(rng, room, unruly) if unruly and pick < 0.4
                       else scan_noise(rng, room) if pick < 0.55 else honest_noise(rng, room))
            if unruly and seldom(rng, 25):
                echo = echo_of(room, step)
                if echo:
                    yield echo
            yield step
            if seldom(rng, 25):
                yield step
        if rules.chosen(room, row) or seldom(rng, 8):
            row, ballot = row % room.rows + 1, rng.choice([0, 0, 0, 1, 5])
        else:
            ballot = min(15, ballot + rng.choice([1, 1, 1, 2]))


def call_of(room, step: Step) -> rules.Call:
    name, numbers = step
    if name == "foreign1b":
        return rules.foreign_1b(room, *numbers[:5], len(numbers[5]), numbers[5])
    return sheet.STEPS[name][0](room, *numbers)


def unruly_nodes(rng, room) -> list:
    nodes = list(range(room.nodes))
    rng.shuffle(nodes)
    count = rng.choice([0, room.faulty, room.faulty, room.faulty + 1, room.nodes])
    return nodes[:count]


# ---- sheets -------------------------------------------------------------------------------

def line_of(step: Step) -> bytes:
    name, numbers = step
    fields = sheet.STEPS[name][1]
    words = ["do=" + name]
    for field, number in zip(fields, numbers):
        if field == "pairs":
            number = ",".join(f"{tube}:{ballot}" for tube, ballot in number)
        words.append(f"{field}={number}")
    return " ".join(words).encode()


def spoiled(rng, line: bytes) -> bytes:
    """A line with one thing changed; now and then it stays a good line of another meaning."""
    place = rng.randrange(len(line) + 1) if line else 0
    way = rng.randrange(9)
    if way == 0:
        return line[:place] + bytes([rng.randrange(256)]).replace(b"\n", b"\r") + line[place:]
    if way == 1:
        return line[:place] + line[place + 1:]
    if way == 2:
        return line[:place] + rng.choice([b" ", b"  ", b"\t", b"0", b"=", b",", b":", b"1"]) + line[place:]
    if way == 3:
        return line.replace(b"=", b"=0", 1 + rng.randrange(3))
    if way == 4:
        words = line.split(b" ")
        rng.shuffle(words)
        return b" ".join(words)
    if way == 5:
        return line + rng.choice([b" ", b"\r", b"\0", b"0" * 200, b" tube=1", b"4294967296"])
    if way == 6:
        return line[:place]
    if way == 7:
        return rng.choice([b"", b"weak=1", b"do=ask row=1", b"do=book", b"x" * rng.choice([199, 200, 201, 450])])
    digits = rng.choice([b"4294967295", b"4294967296", b"18446744073709551616"])
    head, sign, tail = line.rpartition(b"=")
    return head + sign + digits if sign else tail + digits


def heading_lines(room: tuple, rows: int, capacity: int) -> List[bytes]:
    nodes, faulty, quorums, weak = room
    lines = [f"nodes={nodes}", f"faulty={faulty}", f"rows={rows}", f"capacity={capacity}"]
    lines += [f"quorum={one}" for one in quorums] + [f"weak={one}" for one in weak]
    return [line.encode() for line in lines]


def joined(rng, lines: List[bytes]) -> bytes:
    text = b"\n".join(lines)
    return text if seldom(rng, 10) else text + b"\n"


def running_sheet(rng) -> bytes:
    """A room that opens, and a run in it."""
    shape = any_room(rng)
    rows = rng.choice([1, 1, 2, 2, 3, 4, 8, 64])
    capacity = rng.choice([1, 3, 8, 20, 40, 80, 80, 200, 200, 1024])
    room = open_with(shape, rows, capacity)
    lines = heading_lines(shape, rows, capacity)
    unruly = unruly_nodes(rng, room)
    scans = rng.choice([0, 1, 2, 3, 3, 4, 4]) if not seldom(rng, 30) else rng.choice([63, 64, 64])
    length = scans + rng.choice([5, 20, 40, 60, 100, 160])
    bad = rng.choice([0.0, 0.0, 0.02, 0.1])
    steps = run(rng, room, rng.choice([0.0, 0.1, 0.2, 0.5]), unruly, len(unruly) > room.faulty, scans)
    for step in itertools.islice(steps, length):
        line = line_of(step)
        if rng.random() < bad:
            wrong = spoiled(rng, line)
            lines.append(wrong)
            try:
                settle_line(room, wrong)
            except sheet.BadLine:
                pass
        lines.append(line)
        try:
            settle_line(room, line)
        except sheet.BadLine:
            pass
    return joined(rng, lines)


def settle_line(room, line: bytes) -> None:
    name, numbers = sheet.read_step(line)
    rules.settle(sheet.STEPS[name][0](room, *numbers))


def heading_sheet(rng) -> bytes:
    """A heading with something the matter, then a few steps."""
    shape = list(any_room(rng) if seldom(rng, 2) else rng.choice(SMALL_ROOMS))
    rows, capacity = rng.choice([1, 2, 64]), rng.choice([1, 16, 1024])
    way = rng.randrange(8)
    if way == 0:
        which = rng.randrange(4)
        if which == 0:
            shape[0] = rng.choice([0, 9, 10, 256, 257, LARGEST])
        elif which == 1:
            shape[1] = rng.choice([8, 9, 256, LARGEST])
        elif which == 2:
            rows = rng.choice([0, 65, 256, 257, LARGEST])
        else:
            capacity = rng.choice([0, 1025, 65536, 65537, LARGEST])
    if way in (0, 1, 2):
        for _ in range(rng.randint(1 if way else 0, 2)):
            which = rng.choice([2, 3])
            sets = list(shape[which])
            sets.insert(rng.randint(0, len(sets)), rng.choice([0, 1, 2, 3, 2 ** (shape[0] % 32), 255, 256, 257, LARGEST]))
            shape[which] = sets
    if way == 3:
        if seldom(rng, 2):
            shape[1] = rng.randint(0, 8)
        else:
            shape[3] = list(shape[3]) + [rng.choice([0, 1]) if shape[1] else 0]
    if way == 4:
        which = rng.choice([2, 3])
        shape[which] = [rng.choice(shape[which]) for _ in range(rng.choice([63, 64, 65, 66, 130]))]
    lines = heading_lines(tuple(shape), rows, capacity)
    if way >= 5:
        place = rng.randrange(len(lines))
        change = rng.randrange(5)
        if change == 0:
            lines[place] = spoiled(rng, lines[place])
        elif change == 1:
            del lines[place]
        elif change == 2:
            lines.insert(place, lines[rng.randrange(len(lines))])
        elif change == 3:
            other = rng.randrange(len(lines))
            lines[place], lines[other] = lines[other], lines[place]
        else:
            lines = lines[:place]
    for _ in range(rng.randint(0, 4)):
        lines.append(rng.choice([b"do=1a row=1 ballot=0", b"do=scan station=1 serial=1", b"weak=01", b"quorum=1", b""]))
    return joined(rng, lines)


def rubbish_sheet(rng) -> bytes:
    if seldom(rng, 2):
        return bytes(rng.choice(b"do=1a row ballot=0\n\nweak quorum nodes 1\r\0") for _ in range(rng.randint(0, 300)))
    text = running_sheet(rng)
    for _ in range(rng.randint(1, 4)):
        place = rng.randrange(len(text))
        text = text[:place] + bytes([rng.randrange(256)]) + text[place + 1:]
    return text


def sheets(count: int = 2000, seed: int = 1) -> Iterator[bytes]:
    for number in range(count):
        rng = random.Random(seed * 1000003 + number)
        pick = number % 10
        yield heading_sheet(rng) if pick == 8 else rubbish_sheet(rng) if pick == 9 else running_sheet(rng)


# ---- memory lent in frames ----------------------------------------------------------------

NO_PAIRS = ((0, 0),) * rules.MOST_PAIRS
CALL_OF = {"1a": frames.SEND_1A, "1b": frames.SEND_1B, "1c": frames.SEND_1C, "2av": frames.SEND_2AV,
           "2b": frames.SEND_2B, "hear": frames.HEAR, "scan": frames.SCAN_TUBE, "ask": frames.ASK, "book": frames.BOOK}
AREAS = ("board", "cells", "heard", "book", "waiting")


def filler(rng, length: int) -> bytes:
    return bytes(length) if seldom(rng, 4) else rng.randbytes(length)


def needed(room) -> dict:
    return {"board": 40 * room.capacity, "cells": 36 * room.nodes * room.rows, "heard": 128 * room.nodes,
            "book": room.rows, "waiting": 64}


def lent(rng, room, call: int) -> frames.Memory:
    """The room as bytes, with junk wherever nothing is looked at."""
    lengths = needed(room)
    if call != frames.BOOK:
        lengths["book"] = rng.choice([0, 0, 5])
        lengths["waiting"] = rng.choice([0, 0, 5])
    areas = {name: filler(rng, length + (rng.randint(1, 45) if seldom(rng, 3) else 0)) for name, length in lengths.items()}
    return frames.memory_of(room, frames.Memory(house=filler(rng, frames.HOUSE.size), **areas))


def frame_with(call: int, arguments, memory: frames.Memory, pairs=NO_PAIRS) -> frames.Frame:
    filled = tuple(arguments) + (0,) * (8 - len(arguments))
    return frames.Frame(call, filled, tuple(pairs), (), (), memory)


def foreign_frame(rng, step: Step, memory) -> frames.Frame:
    name, numbers = step
    if name != "foreign1b":
        kind = {"foreign2av": rules.KIND_2AV, "foreign2b": rules.KIND_2B}[name]
        beside = NO_PAIRS if seldom(rng, 2) else [(rng.randrange(256), rng.randrange(256)) for _ in range(16)]
        return frame_with(frames.FOREIGN, (kind, *numbers), memory, beside)
    row, ballot, node, mbal, mval, used = numbers
    places = [(min(tube, 255), min(byte, 255)) for tube, byte in used][:16]
    count = len(used)
    places += [(0, 0)] * (16 - len(places))
    if seldom(rng, 20) and count < 16:
        places[rng.randrange(count, 16)] = rng.choice([(1, 0), (0, 1), (1, 15), (255, 255)])
    if seldom(rng, 30):
        count = rng.choice([17, 255, 256, 256 + count, LARGEST])
    return frame_with(frames.FOREIGN, (rules.KIND_1B, row, ballot, node, 0, mbal, mval, count), memory, places)


def other_kind_frame(rng, room, memory) -> frames.Frame:
    kind = rng.choice([0, 1, 3, 6, 255, 256, 258, 260, 261, LARGEST])
    row, ballot = some_row(rng, room), some_ballot(rng)
    return frame_with(frames.FOREIGN, (kind, row, ballot, 0, some_tube(rng, room) if kind == 3 else 0), memory)


def step_frame(rng, room, step: Step) -> frames.Frame:
    name, numbers = step
    if name.startswith("foreign"):
        return foreign_frame(rng, step, lent(rng, room, frames.FOREIGN))
    return frame_with(CALL_OF[name], numbers, lent(rng, room, CALL_OF[name]))


def any_step(rng, room) -> Step:
    """Some call of any sort, ask and book too."""
    pick = rng.randrange(20)
    if pick < 2:
        return "ask", (some_row(rng, room),)
    if pick < 4:
        return "book", ()
    if pick < 6:
        return scan_noise(rng, room)
    if pick < 10:
        return foreign_noise(rng, room, [])
    return honest_noise(rng, room)


# ---- frames: real runs --------------------------------------------------------------------

def run_frames(rng, count: int) -> Iterator[frames.Frame]:
    """Steps of one run, each with the memory as it stood before."""
    shape = any_room(rng)
    capacity = rng.choice([1, 4, 12, 24, 40, 40])
    room = open_with(shape, rng.choice([1, 1, 2, 3]), capacity)
    unruly = unruly_nodes(rng, room)
    scans = rng.choice([1, 2, 3]) if not seldom(rng, 8) else 64
    steps = run(rng, room, rng.choice([0.1, 0.3]), unruly, len(unruly) > room.faulty, scans)
    for place, step in enumerate(itertools.islice(steps, scans + 60)):
        if place >= scans - 2 and seldom(rng, max(1, 60 // count)):
            yield step_frame(rng, room, step)
            if seldom(rng, 3):
                yield step_frame(rng, room, rng.choice([("book", ()), ("ask", (some_row(rng, room),))]))
            if seldom(rng, 12):
                yield other_kind_frame(rng, room, lent(rng, room, frames.FOREIGN))
        rules.settle(call_of(room, step))


# ---- frames: rooms made up, in form though no run leads there -----------------------------

def ordered_pairs(pairs) -> tuple:
    return tuple(sorted(set(pairs), key=lambda pair: (pair[1], pair[0])))[:16]


def small_ballot(rng, most: int) -> Optional[int]:
    return None if seldom(rng, 2) else rng.randint(0, most)


def made_up_pairs(rng, scanned: int, ballot: int, tube: int) -> tuple:
    """Pairs of a cell: none, a few, sixteen of other tubes, sixteen with this tube among them."""
    way = rng.randrange(8)
    if scanned == 0 or way == 0:
        return ()
    if way < 4:
        return ordered_pairs((rng.randint(1, min(scanned, 3)), rng.randint(0, max(0, ballot - 1 + (way == 3))))
                             for _ in range(rng.randint(1, 3)))
    others = [one for one in range(1, scanned + 1) if one != tube]
    room_for = [(one, below) for one in others for below in range(max(1, ballot))]
    pairs = rng.sample(room_for, min(16, len(room_for)))
    if way >= 6:
        for place in range(rng.randint(1, 2)):
            if place < len(pairs):
                pairs[place] = (tube, rng.randrange(max(1, ballot)))
    return ordered_pairs(pairs)


def made_up_1b(rng, ballot: int, node: int, scanned: int) -> rules.Post1b:
    tubes = max(1, min(scanned, 2))
    pairs = () if scanned == 0 else ordered_pairs(
        (rng.randint(1, tubes), rng.randint(0, min(15, ballot + 1))) for _ in range(rng.choice([0, 1, 1, 2])))
    mval = None if scanned == 0 or seldom(rng, 4) else rng.randint(1, tubes)
    return rules.Post1b(1, ballot, node, small_ballot(rng, min(15, ballot)), mval, pairs)


def leaning_1b(rng, ballot: int, node: int, tube: int, c: int) -> rules.Post1b:
    """A 1b as known safe asks for above ballot c, now and then just off it."""
    mbal = rng.choice([None, c, c, max(0, c - 1)]) if not seldom(rng, 12) else min(15, c + 1)
    mval = tube if not seldom(rng, 10) else rng.choice([None, 1])
    high = min(15, c + rng.choice([0, 1, 1, 1, 2, 2]))
    return rules.Post1b(1, ballot, node, mbal, mval, ((tube, high),) if not seldom(rng, 4) else ())


def made_up_room(rng, leaning=False) -> Tuple[rules.Room, int, int]:
    """A room bent upon row 1, one ballot and one tube; those two are told as well."""
    shape = rng.choice(SMALL_ROOMS[3:]) if not seldom(rng, 4) else any_room(rng)
    room = open_with(shape, rng.choice([1, 1, 2]), 1024)
    scanned = rng.choice([1, 2, 3, 17, 17, 18, 20, 64])
    room.intake = [(rng.choice([0, 3, 255]), 1000 * k + rng.randrange(1000)) for k in range(scanned)]
    ballot = rng.choice([0, 1, 1, 2, 2, 3, 15])
    tube = rng.choice([1, 1, 2, scanned]) if scanned > 1 else 1
    posts = [rules.Post1a(1, ballot)] if not seldom(rng, 4) else []
    posts += [rules.Post1c(1, ballot, one) for one in sorted({tube, rng.randint(1, scanned)}) if not seldom(rng, 10)]
    none_at_all = seldom(rng, 3) and not leaning
    c = rng.randrange(max(1, ballot))
    for node in range(room.nodes):
        for _ in range(rng.choice([0, 1, 1, 1, 2])):
            post = leaning_1b(rng, ballot, node, tube, c) if leaning else made_up_1b(rng, ballot, node, scanned)
            posts.append(replace(post, mbal=None) if none_at_all else post)
        if not seldom(rng, 3):
            posts.append(rules.Post2av(1, ballot, node, tube))
        if seldom(rng, 3):
            posts.append(rules.Post2b(rng.randint(1, room.rows), rng.choice([ballot, 0]), node, rng.choice([tube, 1])))
        if seldom(rng, 6):
            posts.append(rules.Post2b(1, ballot, node, rng.randint(1, scanned)))
    rng.shuffle(posts)
    for post in posts:
        room.append(post)
    room.capacity = max(1, len(room.board) + rng.choice([0, 0, 0, 1, 2, 9]))
    room.heard = {(node, number) for number, post in enumerate(room.board) if isinstance(post, rules.Post1b)
                  for node in range(room.nodes) if not seldom(rng, 8)}
    room.marks = {node for node in range(room.nodes) if seldom(rng, 3)}
    for place in room.cells:
        highest = rng.choice([None, None, 0, ballot, max(0, ballot - 1), min(15, ballot + 1)])
        room.cells[place] = rules.Cell(highest, small_ballot(rng, 15),
                                       None if seldom(rng, 2) else rng.randint(1, scanned),
                                       made_up_pairs(rng, scanned, ballot, tube))
    return room, ballot, tube


def made_up_step(rng, room, ballot: int, tube: int) -> Step:
    if seldom(rng, 8):
        return any_step(rng, room)
    node = rng.randrange(room.nodes)
    missing = min(64, len(room.intake) + 1)
    which = rng.choice([tube, tube, tube, tube, rng.randint(1, len(room.intake)), missing])
    near = rng.choice([ballot, ballot, ballot, ballot, max(0, ballot - 1), min(15, ballot + 1)])
    name = rng.choice(["2av"] * 8 + ["2b"] * 5 + ["1b"] * 4 + ["1a", "1c", "hear", "ask", "ask", "book", "book"] + ["echo"] * 3)
    if name == "echo":
        return echo_of(room, rng.choice([("1b", (1, near, node)), ("2av", (1, near, node, which)),
                                         ("2b", (1, near, node, which))]))
    if name == "hear":
        return name, (node, some_message(rng, room))
    if name == "ask":
        return name, (1,)
    return name, {"1a": (1, near), "1b": (1, near, node), "1c": (1, near, which), "2av": (1, near, node, which),
                  "2b": (1, near, node, which), "book": ()}[name]


def made_up_frames(rng) -> Iterator[frames.Frame]:
    room, ballot, tube = made_up_room(rng)
    for _ in range(3):
        yield step_frame(rng, room, made_up_step(rng, room, ballot, tube))


def relay_frames(rng) -> Iterator[frames.Frame]:
    """2av with its 1c on the board and a cell that mostly allows it, so that the heard 1b messages decide."""
    room, ballot, tube = made_up_room(rng, leaning=not seldom(rng, 3))
    second = rng.randint(1, min(2, len(room.intake)))
    for one in (tube, second):
        room.append(rules.Post1c(1, ballot, one))
    room.capacity = len(room.board) + rng.choice([0, 1, 1, 1, 5])
    for node in range(room.nodes):
        cell = room.cells[(node, 1)]
        room.cells[(node, 1)] = replace(cell, max_bal=rng.choice([None, ballot, max(0, ballot - 1)]),
                                        pairs=tuple(pair for pair in cell.pairs if pair[1] < ballot))
        if seldom(rng, 2):
            yield step_frame(rng, room, ("2av", (1, ballot, node, rng.choice([tube, tube, second]))))


def book_frames(rng) -> Iterator[frames.Frame]:
    """Rows chosen, repeated, split and left open in any mixture; each row asked, and the book written."""
    room = open_with(any_room(rng), rng.choice([1, 2, 3, 4, 6]), 1024)
    room.intake = [(7, serial) for serial in range(rng.choice([1, 2, 3, 4, 64]))]
    for row in range(1, room.rows + 1):
        for _ in range(rng.choice([0, 1, 1, 1, 1, 1, 2])):
            tube, ballot = rng.randint(1, min(5, len(room.intake))), rng.randint(0, 15)
            voters = sorted(rng.choice(room.quorums))
            if seldom(rng, 6):
                voters = voters[1:]
            for node in voters:
                room.append(rules.Post2b(row, ballot, node, tube))
    room.capacity = max(1, len(room.board) + rng.choice([0, 3]))
    yield step_frame(rng, room, ("book", ()))
    for row in range(1, room.rows + 1):
        yield step_frame(rng, room, ("ask", (row,)))
    yield step_frame(rng, room, rng.choice([("scan", (8, 8)), ("scan", (7, 0)), ("scan", (256, 0))]))


def posted_already_frames(rng) -> Iterator[frames.Frame]:
    """A full board that holds the step's very message: the step is done, nothing is added."""
    room, ballot, tube = made_up_room(rng)
    node = rng.randrange(room.nodes)
    step = rng.choice([("1b", (1, ballot, node)), ("2av", (1, ballot, node, tube)), ("2b", (1, ballot, node, tube))])
    if not seldom(rng, 4):
        room.cells[(node, 1)] = replace(room.cells[(node, 1)], max_bal=None if step[0] == "1b" else ballot)
    for needed_post in (rules.Post1a(1, ballot), rules.Post1c(1, ballot, tube)):
        room.append(needed_post)
    rules.settle(call_of(room, echo_of(room, step)))
    room.capacity = len(room.board)
    yield step_frame(rng, room, step)
    yield step_frame(rng, room, echo_of(room, step))


# ---- frames: damage -----------------------------------------------------------------------

def with_byte(area: bytes, place: int, byte: int) -> bytes:
    return area[:place] + bytes([byte & 255]) + area[place + 1:]


def changed_house(memory: frames.Memory, **fields) -> frames.Memory:
    house = replace(frames.HouseImage.read(memory.house), **fields)
    values = [getattr(house, name) for name in house.__dataclass_fields__]
    return replace(memory, house=frames.HOUSE.pack(*values))


def any_byte_damaged(rng, room, memory: frames.Memory) -> frames.Memory:
    """One byte changed anywhere in what is looked at."""
    used = {"house": frames.HOUSE.size, "board": 40 * len(room.board), "cells": 36 * room.nodes * room.rows,
            "heard": 128 * room.nodes}
    name = rng.choice([name for name, length in used.items() if length])
    area = getattr(memory, name)
    place = rng.randrange(used[name])
    if name == "board" and not seldom(rng, 3):
        place = place - place % 40 + rng.randrange(10)
    if name == "cells" and not seldom(rng, 3):
        place = place - place % 36 + rng.randrange(6)
    if name == "house" and seldom(rng, 2):
        place = rng.choice([0, 1, 2, 3, 4, 5, 6, 7, 71, 135, 136, 456, 457, 458])
    old = area[place]
    new = rng.choice([0, 1, old + 1, old - 1, old ^ (1 << rng.randrange(8)), 16, 255, rng.randrange(256)])
    return replace(memory, **{name: with_byte(area, place, new)})


def counts_damaged(rng, room, memory: frames.Memory) -> frames.Memory:
    """One count of the house record outside its limits."""
    field, values = rng.choice([
        ("nodes", [0, 9, 255]), ("faulty", [8, 9, 255]), ("rows", [0, 65, 255]), ("capacity", [0, 1025, 65535]),
        ("quorum_count", [0, 65, 255]), ("weak_count", [0, 65, 255]), ("scanned", [65, 255]),
        ("messages", [room.capacity + 1, 1025, 65535])])
    return changed_house(memory, **{field: rng.choice(values)})


def tables_damaged(rng, room, memory: frames.Memory) -> frames.Memory:
    """A table, the marks or the intake out of form, whatever the areas hold."""
    house = frames.HouseImage.read(memory.house)
    ways = [lambda: changed_house(memory, quorum_table=with_byte(house.quorum_table, len(room.quorums) - 1, 0)),
            lambda: changed_house(memory, weak_table=with_byte(house.weak_table, rng.randrange(len(room.weak)), 0))]
    if room.nodes < 8:
        high = 1 << rng.randint(room.nodes, 7)
        ways += [lambda: changed_house(memory, marks=high),
                 lambda: changed_house(memory, quorum_table=with_byte(house.quorum_table, 0, house.quorum_table[0] | high)),
                 lambda: changed_house(memory, weak_table=with_byte(house.weak_table, len(room.weak) - 1, 255))]
    if len(room.intake) > 1:
        first, last = house.intake[:5], house.intake[5:5 * len(room.intake)][-5:]
        ways.append(lambda: changed_house(
            memory, intake=house.intake[:5 * (len(room.intake) - 1)] + first + house.intake[5 * len(room.intake):]))
        assert first != last
    return rng.choice(ways)()


def pairs_damages(rng, start: int, count: int, scanned: int) -> list:
    """(place, byte) changes that put a pair count and its sixteen places out of form, start being the count's place."""
    changes = [(start, 17), (start, 255), (start, count + 1)]
    if count < 16:
        changes += [(start + 1 + 2 * rng.randint(count, 15), 1), (start + 2 + 2 * rng.randint(count, 15), 1)]
    if count:
        which = rng.randrange(count)
        changes += [(start + 1 + 2 * which, 0), (start + 1 + 2 * which, scanned + 1), (start + 2 + 2 * which, 16),
                    (start + 2 + 2 * which, 255), (start, count - 1), (start + 1, 65)]
    return changes


def messages_damaged(rng, room, memory: frames.Memory) -> frames.Memory:
    """A message out of form in one named way."""
    if not room.board:
        return tables_damaged(rng, room, memory)
    number = rng.randrange(len(room.board))
    post, start, scanned = room.board[number], 40 * number, len(room.intake)
    if seldom(rng, 6) and len(room.board) > 1:
        other = rng.choice([k for k in range(len(room.board)) if k != number])
        image = memory.board[40 * other:40 * other + 40]
        return replace(memory, board=memory.board[:start] + image + memory.board[start + 40:])
    changes = [(0, 0), (0, 6), (0, 255), (1, 0), (1, room.rows + 1), (1, 65), (2, 16), (2, 255), (3, room.nodes),
               (3, 255)]
    if isinstance(post, rules.Post1b):
        changes += [(4, 1), (5, 16), (5, 254), (6, scanned + 1), (6, 65)] + pairs_damages(rng, 7, len(post.pairs), scanned) * 2
    else:
        changes += [(5, 255), (5, 1), (6, 1), (7, 1), (8 + rng.randrange(32), 1)]
        if isinstance(post, rules.Post1a):
            changes += [(3, 1), (4, 1)]
        else:
            changes += [(4, 0), (4, scanned + 1), (4, 65)]
            if isinstance(post, rules.Post1c):
                changes += [(3, 1)]
    place, byte = rng.choice(changes)
    return replace(memory, board=with_byte(memory.board, start + place, byte))


def cells_damaged(rng, room, memory: frames.Memory) -> frames.Memory:
    places = [(node, row) for node in range(room.nodes) for row in range(1, room.rows + 1)]
    number = rng.choice([0, len(places) - 1, rng.randrange(len(places))])
    cell, scanned = room.cells[places[number]], len(room.intake)
    changes = [(0, 16), (0, 254), (1, 16), (1, 254), (2, scanned + 1), (2, 65), (2, 255)]
    place, byte = rng.choice(changes + pairs_damages(rng, 3, len(cell.pairs), scanned))
    return replace(memory, cells=with_byte(memory.cells, 36 * number + place, byte))


def heard_damaged(rng, room, memory: frames.Memory) -> frames.Memory:
    node = rng.choice([0, room.nodes - 1, rng.randrange(room.nodes)])
    no_1b = [k for k in range(1024) if k >= len(room.board) or not isinstance(room.board[k], rules.Post1b)]
    number = rng.choice([no_1b[0], min(len(room.board), 1023), min(room.capacity, 1023), 1023, rng.choice(no_1b)])
    place = 128 * node + number // 8
    return replace(memory, heard=with_byte(memory.heard, place, memory.heard[place] | 1 << number % 8))


FORM_DAMAGES = (tables_damaged, messages_damaged, cells_damaged, heard_damaged)


def shortened(rng, room, frame: frames.Frame) -> frames.Frame:
    """One area a byte short, or without any byte."""
    names = AREAS if frame.call == frames.BOOK else AREAS[:3]
    name = rng.choice(names)
    length = needed(room)[name] - 1 if not seldom(rng, 5) else 0
    return replace(frame, memory=replace(frame.memory, **{name: getattr(frame.memory, name)[:length]}))


def step_outside_limits(rng, room, name: str) -> frames.Frame:
    """A call of this name with a field outside its limits (book has none)."""
    if name == "foreign other":
        return other_kind_frame(rng, room, lent(rng, room, frames.FOREIGN))
    row, ballot, node = rng.choice([(0, 0, 0), (room.rows + 1, 0, 0), (1, 16, 0), (257, 0, 0)])
    numbers = {"1a": (row, ballot), "1b": (row, ballot, node), "1c": (row, ballot, 1), "2av": (row, ballot, node, 1),
               "2b": (row, ballot, node, 1), "hear": (room.nodes, 0), "scan": (256, 0), "ask": (0,), "book": (),
               "foreign2av": (row, ballot, node, 1), "foreign2b": (row, ballot, node, 1),
               "foreign1b": (row, ballot, node, 255, 0, [])}[name]
    return step_frame(rng, room, (name, numbers))


def some_made_room(rng) -> rules.Room:
    if seldom(rng, 2):
        return made_up_room(rng)[0]
    room = open_with(rng.choice(SMALL_ROOMS), rng.choice([1, 2, 3]), rng.choice([2, 10, 30]))
    for step in itertools.islice(run(rng, room, 0.2, unruly_nodes(rng, room)), rng.randint(3, 40)):
        rules.settle(call_of(room, step))
    return room


NAMES_OF_STEPS = ("1a", "1b", "1c", "2av", "2b", "hear", "scan", "foreign1b", "foreign2av", "foreign2b",
                  "foreign other", "ask", "book")


def damaged_frames(rng) -> Iterator[frames.Frame]:
    """The same memory damaged in several ways, each under some call."""
    room = some_made_room(rng)
    for _ in range(3):
        frame = step_frame(rng, room, any_step(rng, room))
        yield replace(frame, memory=any_byte_damaged(rng, room, frame.memory))
    for damage in FORM_DAMAGES:
        frame = step_frame(rng, room, any_step(rng, room))
        yield replace(frame, memory=damage(rng, room, frame.memory))


def meeting_frames(rng, name: str) -> Iterator[frames.Frame]:
    """For one call: each of 17 (counts), 5, 17 (form) and 6 alone and beside the next."""
    room = some_made_room(rng)

    def frame():
        return step_outside_limits(rng, room, name)

    def formless(one):
        return replace(one, memory=rng.choice(FORM_DAMAGES)(rng, room, one.memory))

    def tableless(one):
        return replace(one, memory=tables_damaged(rng, room, one.memory))

    def countless(one):
        return replace(one, memory=counts_damaged(rng, room, one.memory))

    yield frame()
    yield shortened(rng, room, frame())
    yield formless(frame())
    yield countless(frame())
    yield shortened(rng, room, tableless(frame()))
    yield shortened(rng, room, countless(frame()))
    yield countless(tableless(frame()))


# ---- frames: openings ---------------------------------------------------------------------

def opening_frame(rng) -> frames.Frame:
    """An opening with none, one or several things the matter, over whatever the memory held."""
    nodes, faulty, quorums, weak = any_room(rng)
    quorums, weak = list(quorums), list(weak)
    rows, capacity = rng.choice([1, 2, 3, 5]), rng.choice([1, 2, 10, 30])
    lengths = {"board": 40 * capacity, "cells": 36 * nodes * rows, "heard": 128 * nodes,
               "book": rng.choice([0, 3]), "waiting": rng.choice([0, 3])}
    for name in AREAS[:3]:
        lengths[name] += rng.choice([0, 0, 1, 40])
        if seldom(rng, 12):
            lengths[name] = max(0, {"board": 40 * capacity, "cells": 36 * nodes * rows, "heard": 128 * nodes}[name] - 1)
    if seldom(rng, 6):
        weak.insert(rng.randint(0, len(weak)), rng.choice([0, 1 << rng.randrange(nodes)]))
    if seldom(rng, 6):
        quorums.insert(rng.randint(0, len(quorums)), rng.choice([0, 1, 3, 2 ** (nodes - 1)]))
    if seldom(rng, 6):
        sets = rng.choice([quorums, weak])
        sets.insert(rng.randint(0, len(sets)), rng.choice([1 << nodes, 1 + (1 << nodes), 256, 257, 1 << 31, LARGEST]))
    if seldom(rng, 6):
        which = rng.randrange(6)
        if which == 0:
            nodes = rng.choice([0, 9, 256 + nodes, LARGEST])
        elif which == 1:
            faulty = rng.choice([8, 256 + faulty, LARGEST])
        elif which == 2:
            rows = rng.choice([0, 65, 256 + rows, LARGEST])
        elif which == 3:
            capacity = rng.choice([0, 1025, 65536 + capacity, LARGEST])
        else:
            sets = quorums if which == 4 else weak
            sets[:] = [sets[0]] * rng.choice([0, 65, 70])
    elif seldom(rng, 12):
        sets = rng.choice([quorums, weak])
        sets[:] = [rng.choice(sets) for _ in range(64)]
    if seldom(rng, 20):
        faulty = rng.randint(0, 7)
    memory = frames.Memory(filler(rng, frames.HOUSE.size), **{name: filler(rng, lengths[name]) for name in AREAS})
    return frames.Frame(frames.OPEN, (nodes, faulty, rows, capacity, 0, 0, 0, 0), NO_PAIRS,
                        tuple(quorums[:70]), tuple(weak[:70]), memory)


def large_opening_frame(rng) -> frames.Frame:
    capacity, rows = 1024, 64
    longest = dict(zip(AREAS, frames.LONGEST_AREAS))
    exact = {"board": 40 * capacity, "cells": 36 * 8 * rows, "heard": 1024, "book": 64, "waiting": 64}
    lengths = {name: rng.choice([longest[name], exact[name]]) for name in AREAS}
    if seldom(rng, 2):
        short = rng.choice(AREAS[:3])
        lengths[short] = exact[short] - 1
    memory = frames.Memory(filler(rng, frames.HOUSE.size), **{name: filler(rng, lengths[name]) for name in AREAS})
    return frames.Frame(frames.OPEN, (8, 1, rows, capacity, 0, 0, 0, 0), NO_PAIRS,
                        tuple(all_sets(8, 5)), tuple(all_sets(8, 2)), memory)


def large_room(rng) -> rules.Room:
    """Sixty-four rows, a full intake and a board of 1,024 that is full or nearly so."""
    room = open_with(LARGE_ROOMS[2], 64, 1024)
    room.intake = [(k, LARGEST - k) for k in range(64)]
    rows = rng.randint(60, 64)
    posts = [rules.Post2b(row, row % 16, node, 65 - row) for row in range(1, rows + 1) for node in range(5)]
    posts += [rules.Post1a(row, ballot) for row in range(1, 65) for ballot in range(16)]
    posts = posts[:rng.choice([1022, 1023, 1024, 1024])]
    number = rng.randrange(len(posts))
    posts[number] = rules.Post1b(1, 3, 7, None, None, tuple((tube, 0) for tube in range(1, 17)))
    if seldom(rng, 2):
        posts[-1] = rules.Post1b(64, 15, 7, 15, 64, tuple((64, ballot) for ballot in range(16)))
    for post in posts:
        room.append(post)
    room.heard = {(node, k) for k, post in enumerate(room.board) if isinstance(post, rules.Post1b) for node in range(8)}
    room.marks = set(range(8))
    return room


def large_frames(rng) -> Iterator[frames.Frame]:
    room = large_room(rng)
    for step in (("book", ()), ("ask", (64,)), ("1a", (64, 15)), ("1c", (64, 15, 64)), ("hear", (7, 1023)),
                 ("hear", (7, 1024)), ("scan", (63, LARGEST - 63)), ("scan", (9, 9)), ("1b", (64, 15, 7)),
                 ("foreign2b", (64, 15, 7, 64)), ("2b", (64, 15, 7, 64))):
        if not seldom(rng, 3):
            frame = step_frame(rng, room, step)
            if seldom(rng, 4):
                frame = shortened(rng, room, frame)
            elif seldom(rng, 4):
                frame = replace(frame, memory=rng.choice(FORM_DAMAGES)(rng, room, frame.memory))
            yield frame
    yield large_opening_frame(rng)


# ---- all frames ---------------------------------------------------------------------------

def all_frames(seed: int = 1, size: float = 1.0) -> Iterator[frames.Frame]:
    """Frames of every sort; `size` makes each part larger or smaller."""
    parts = [
        (70, lambda rng, number: run_frames(rng, 10)),
        (480, lambda rng, number: made_up_frames(rng)),
        (250, lambda rng, number: relay_frames(rng)),
        (90, lambda rng, number: posted_already_frames(rng)),
        (90, lambda rng, number: book_frames(rng)),
        (110, lambda rng, number: damaged_frames(rng)),
        (10 * len(NAMES_OF_STEPS), lambda rng, number: meeting_frames(rng, NAMES_OF_STEPS[number % len(NAMES_OF_STEPS)])),
        (500, lambda rng, number: iter([opening_frame(rng)])),
        (5, lambda rng, number: large_frames(rng)),
    ]
    for part, (count, make) in enumerate(parts):
        for number in range(max(1, round(count * size))):
            yield from make(random.Random(seed * 1000003 + part * 100003 + number), number)


def ending_frames() -> List[bytes]:
    """Frames that cannot be held, as bytes: each length one above what a frame may have, and one beyond all measure."""
    room = open_with(SMALL_ROOMS[0], 1, 1)
    good = frame_with(frames.SEND_1A, (1, 0), lent(random.Random(5), room, frames.SEND_1A))
    images = []
    for name, longest in zip(AREAS, frames.LONGEST_AREAS):
        images.append(frames.frame_image(replace(good, memory=replace(good.memory, **{name: bytes(longest + 1)}))))
    images.append(frames.frame_image(replace(good, quorums=(1,) * (frames.LONGEST_LIST + 1))))
    images.append(frames.frame_image(replace(good, weak=(1,) * (frames.LONGEST_LIST + 1))))
    whole = frames.frame_image(good)
    place = frames.FRONT.size - 28
    images.append(whole[:place + 8] + b"\xff" * 4 + whole[place + 12:])
    return images


def main() -> None:
    """Says how much is made; with a folder named, writes the sheets and the frames there."""
    made_sheets, made_frames = list(sheets()), [frames.frame_image(frame) for frame in all_frames()]
    if len(sys.argv) > 1:
        for number, one in enumerate(made_sheets):
            with open(f"{sys.argv[1]}/{number:05}.sheet", "wb") as out:
                out.write(one)
        with open(f"{sys.argv[1]}/frames.bin", "wb") as out:
            out.write(b"".join(made_frames))
    print(len(made_sheets), "sheets of", sum(map(len, made_sheets)), "bytes,",
          len(made_frames), "frames of", sum(map(len, made_frames)), "bytes")


if __name__ == "__main__":
    main()
