"""Writes the stored sessions: each sheet beside the output that document 01 asks of it, written by hand and never by running a program."""

import itertools
import os

HERE = os.path.dirname(os.path.abspath(__file__))
FOLDER = os.path.join(HERE, "sessions")

FOUR = (7, 11, 13, 14), (3, 5, 6, 9, 10, 12)
ONE = (1,), (1,)
names = set()


def store(name: str, sheet: bytes, expected: bytes) -> None:
    assert name not in names, name
    names.add(name)
    for ending, text in ((".sheet", sheet), (".expected", expected)):
        with open(os.path.join(FOLDER, name + ending), "wb") as out:
            out.write(text)


def heading(nodes, faulty, rows, capacity, quorums, weak):
    return ([f"nodes={nodes}", f"faulty={faulty}", f"rows={rows}", f"capacity={capacity}"]
            + [f"quorum={one}" for one in quorums] + [f"weak={one}" for one in weak])


def one_room(rows=1, capacity=16):
    return heading(1, 0, rows, capacity, *ONE)


def four_room(rows=1, capacity=64):
    return heading(4, 1, rows, capacity, *FOUR)


def text(lines) -> bytes:
    return "".join(line + "\n" for line in lines).encode("latin-1")


def told(answer) -> str:
    """An answer as printed: a number, or (0, tube) for an accepted scan."""
    return f"answer={answer}" if isinstance(answer, int) else f"answer=0 tube={answer[1]}"


def session(name, head, steps, closing) -> None:
    """A session that opens: steps as (line, answer), then the lines after the answers."""
    store(name, text(head + [line for line, _ in steps]),
          text(["answer=0"] + [told(answer) for _, answer in steps] + closing))


def refused(name, head, number, more=()) -> None:
    """A sheet that prints one line, whatever follows the heading."""
    store(name, text(list(head) + list(more)), text([f"answer={number}"]))


def scans(count, station=3, first_serial=0):
    return [(f"do=scan station={station} serial={first_serial + k}", (0, k + 1)) for k in range(count)]


def waiting(tubes, station=3):
    return [f"waiting={tube} station={station} serial={tube - 1}" for tube in tubes]


def total(scanned, entered, void, wait):
    return [f"scanned={scanned} entered={entered} void={void} waiting={wait}"]


def all_right(lines):
    return [(line, 0) for line in lines]


# ---- document 01's own --------------------------------------------------------------------

def worked_session():
    sheet = b"""nodes=1
faulty=0
rows=1
capacity=16
quorum=1
weak=1
do=scan station=3 serial=70
do=scan station=4 serial=70
do=1a row=1 ballot=0
do=1b row=1 ballot=0 node=0
do=hear node=0 message=1
do=1c row=1 ballot=0 tube=2
do=2av row=1 ballot=0 node=0 tube=2
do=2b row=1 ballot=0 node=0 tube=2
"""
    expected = b"""answer=0
answer=0 tube=1
answer=0 tube=2
answer=0
answer=0
answer=0
answer=0
answer=0
answer=0
row=1 tube=2 station=4 serial=70
waiting=1 station=3 serial=70
scanned=2 entered=1 void=0 waiting=1
"""
    store("case14", sheet, expected)
    store("case14-last-line-without-newline", sheet[:-1], expected)


def honest_row(row, tube, ballot, nodes, first):
    """A whole ballot of honest steps, the first of its messages being number `first`."""
    lines = [f"do=1a row={row} ballot={ballot}"]
    lines += [f"do=1b row={row} ballot={ballot} node={node}" for node in nodes]
    lines += [f"do=hear node={node} message={first + 1 + k}" for node in nodes for k in range(len(nodes))]
    lines += [f"do=1c row={row} ballot={ballot} tube={tube}"]
    lines += [f"do=2av row={row} ballot={ballot} node={node} tube={tube}" for node in nodes]
    lines += [f"do=2b row={row} ballot={ballot} node={node} tube={tube}" for node in nodes]
    return all_right(lines), 2 + 3 * len(nodes)


def forty_scans():
    for name, head, nodes in (("case15", one_room(39, 195), (0,)), ("case15-four-room", four_room(39, 429), (0, 1, 3))):
        steps, first = scans(40), 0
        for row in range(1, 40):
            more, count = honest_row(row, row, 0, nodes, first)
            steps, first = steps + more, first + count
        closing = [f"row={row} tube={row} station=3 serial={row - 1}" for row in range(1, 40)]
        session(name, head, steps, closing + waiting([40]) + total(40, 39, 0, 1))


def openings():
    four = four_room()
    session("case01-four-room-opens", four, [], total(0, 0, 0, 0))
    refused("case02-quorum-3", heading(4, 1, 1, 64, FOUR[0] + (3,), FOUR[1]), 3)
    refused("case03-weak-1", heading(4, 1, 1, 64, FOUR[0], FOUR[1] + (1,)), 4)
    refused("case04-quorum-16", heading(4, 1, 1, 64, FOUR[0] + (16,), FOUR[1]), 2)
    refused("case05-one-node-one-faulty", heading(1, 1, 1, 16, *ONE), 3)
    refused("open-nodes-0", heading(0, 0, 1, 16, *ONE), 1)
    refused("open-nodes-9", heading(9, 0, 1, 16, *ONE), 1)
    refused("open-nodes-257", heading(257, 0, 1, 16, *ONE), 1)
    refused("open-nodes-4294967295", heading(4294967295, 0, 1, 16, *ONE), 1)
    refused("open-faulty-8", heading(8, 8, 1, 16, (255,), (255,)), 1)
    session("open-faulty-7", heading(8, 7, 1, 16, (255,), (255,)), [], total(0, 0, 0, 0))
    refused("open-faulty-256", heading(1, 256, 1, 16, *ONE), 1)
    refused("open-rows-0", heading(1, 0, 0, 16, *ONE), 1)
    refused("open-rows-65", heading(1, 0, 65, 16, *ONE), 1)
    refused("open-rows-257", heading(1, 0, 257, 16, *ONE), 1)
    refused("open-capacity-0", heading(1, 0, 1, 0, *ONE), 1)
    refused("open-capacity-1025", heading(1, 0, 1, 1025, *ONE), 1)
    refused("open-capacity-65537", heading(1, 0, 1, 65537, *ONE), 1)
    refused("open-quorum-0-is-empty", heading(1, 0, 1, 16, (0,), (1,)), 3)
    refused("open-weak-0-is-empty", heading(1, 0, 1, 16, (1,), (0,)), 4)
    refused("open-quorum-2-absent", heading(1, 0, 1, 16, (2,), (1,)), 2)
    refused("open-quorum-256-absent", heading(8, 0, 1, 16, (256,), (1,)), 2)
    refused("open-quorum-257-is-not-1", heading(1, 0, 1, 16, (257,), (1,)), 2)
    refused("open-weak-257-is-not-1", heading(1, 0, 1, 16, (1,), (257,)), 2)
    refused("open-weak-4294967295", heading(8, 0, 1, 16, (255,), (4294967295,)), 2)
    refused("open-absent-weak-before-small-overlap", heading(4, 1, 1, 64, FOUR[0] + (3,), FOUR[1] + (16,)), 2)
    refused("open-small-overlap-before-small-weak", heading(4, 1, 1, 64, FOUR[0] + (3,), FOUR[1] + (1,)), 3)
    refused("open-count-before-absent-node", heading(4, 8, 1, 64, FOUR[0] + (16,), FOUR[1]), 1)
    refused("open-overlap-of-last-two", heading(4, 1, 1, 64, (15, 15, 3, 12), FOUR[1]), 3)
    refused("open-one-quorum-with-itself", heading(4, 1, 1, 64, (15, 15, 1), FOUR[1]), 3)
    refused("open-faulty-above-nodes", heading(2, 5, 1, 16, (3,), (3,)), 3)
    session("open-64-quorums", heading(1, 0, 1, 16, (1,) * 64, (1,)), [], total(0, 0, 0, 0))
    refused("open-65-quorums", heading(1, 0, 1, 16, (1,) * 65, (1,)), 1)
    session("open-64-weak", heading(1, 0, 1, 16, (1,), (1,) * 64), [], total(0, 0, 0, 0))
    refused("open-65-weak", heading(1, 0, 1, 16, (1,), (1,) * 65), 1)
    refused("open-320-quorums", heading(1, 0, 1, 16, (1,) * 320, (1,)), 1)
    refused("open-257-weak", heading(1, 0, 1, 16, (1,), (1,) * 257), 1)
    refused("open-65-quorums-last-absent", heading(1, 0, 1, 16, (1,) * 64 + (2,), (1,)), 1)
    refused("open-64-quorums-last-absent", heading(1, 0, 1, 16, (1,) * 63 + (2,), (1,)), 2)
    refused("open-refused-then-steps", heading(9, 0, 1, 16, *ONE), 1,
            ["do=scan station=1 serial=1", "rubbish"])


def masks(nodes, size):
    return [sum(1 << node for node in group) for group in itertools.combinations(range(nodes), size)]


def eight_room():
    fives, pairs = masks(8, 5), masks(8, 2)
    assert len(fives) == 56 and len(pairs) == 28
    steps, first = scans(2), 0
    more, count = honest_row(1, 2, 0, (1, 3, 4, 6, 7), 0)
    steps, first = steps + more, first + count
    more, count = honest_row(2, 1, 15, (0, 1, 2, 3, 4), first)
    steps += more
    session("eight-room", heading(8, 1, 3, 64, fives, pairs), steps,
            ["row=1 tube=2 station=3 serial=1", "row=2 tube=1 station=3 serial=0"] + total(2, 2, 0, 0))
    refused("eight-room-two-faulty", heading(8, 2, 3, 64, fives, masks(8, 3)), 3)
    four_votes = all_right(f"do=foreign2b row=1 ballot=0 node={node} tube=1" for node in (0, 2, 4, 6))
    session("eight-room-four-votes-are-none", heading(8, 1, 1, 64, fives, pairs), scans(1) + four_votes,
            waiting([1]) + total(1, 0, 0, 1))


# ---- chosen and book ----------------------------------------------------------------------

def vote(row, tube, ballot=0, node=0):
    return (f"do=foreign2b row={row} ballot={ballot} node={node} tube={tube}", 0)


def books():
    session("split-first-row", one_room(2), scans(2) + [vote(1, 1), vote(1, 2), vote(2, 1)],
            waiting([1, 2]) + ["split=1"] + total(2, 0, 0, 2))
    session("split-after-a-row", one_room(3), scans(3) + [vote(1, 3), vote(2, 1, 4), vote(2, 2, 9), vote(3, 2)],
            ["row=1 tube=3 station=3 serial=2"] + waiting([1, 2]) + ["split=2"] + total(3, 1, 0, 2))
    session("split-last-row", one_room(64, 70),
            scans(2) + [vote(row, 1) for row in range(1, 65)] + [vote(64, 2)],
            ["row=1 tube=1 station=3 serial=0"] + [f"row={row} void=1" for row in range(2, 64)]
            + waiting([2]) + ["split=64"] + total(2, 1, 62, 1))
    session("no-split-one-tube-two-ballots", one_room(1), scans(1) + [vote(1, 1, 0), vote(1, 1, 15)],
            ["row=1 tube=1 station=3 serial=0"] + total(1, 1, 0, 0))
    session("case13-void-and-gap", one_room(4), scans(2) + [vote(1, 1), vote(2, 1), vote(4, 2)],
            ["row=1 tube=1 station=3 serial=0", "row=2 void=1"] + waiting([2]) + total(2, 1, 1, 1))
    session("void-names-the-tube", one_room(3), scans(2) + [vote(1, 2), vote(2, 1), vote(3, 2)],
            ["row=1 tube=2 station=3 serial=1", "row=2 tube=1 station=3 serial=0", "row=3 void=2"] + total(2, 2, 1, 0))
    session("gap-at-the-first-row", one_room(2), scans(1) + [vote(2, 1)], waiting([1]) + total(1, 0, 0, 1))
    session("split-past-the-gap-is-not-told", one_room(2), scans(2) + [vote(2, 1), vote(2, 2)],
            waiting([1, 2]) + total(2, 0, 0, 2))
    session("votes-of-different-tubes-are-no-quorum", four_room(1),
            scans(2) + [vote(1, 1, 0, 0), vote(1, 1, 0, 1), vote(1, 2, 0, 2), vote(1, 2, 0, 3)],
            waiting([1, 2]) + total(2, 0, 0, 2))
    session("votes-of-different-ballots-are-no-quorum", four_room(1),
            scans(1) + [vote(1, 1, 0, 0), vote(1, 1, 0, 1), vote(1, 1, 1, 2), vote(1, 1, 1, 3)],
            waiting([1]) + total(1, 0, 0, 1))
    session("votes-of-different-rows-are-no-quorum", four_room(2),
            scans(1) + [vote(1, 1, 0, 0), vote(1, 1, 0, 1), vote(2, 1, 0, 2), vote(2, 1, 0, 3)],
            waiting([1]) + total(1, 0, 0, 1))
    session("four-room-split-by-two-unruly", four_room(1),
            scans(2) + [vote(1, 1, 0, 0), vote(1, 1, 0, 1), vote(1, 1, 0, 2),
                        vote(1, 2, 0, 1), vote(1, 2, 0, 2), vote(1, 2, 0, 3)],
            waiting([1, 2]) + ["split=1"] + total(2, 0, 0, 2))


# ---- refusals by number -------------------------------------------------------------------

def refusals():
    head = one_room(2, 64)
    session("refusal-06", head, scans(1) + [
        ("do=1a row=0 ballot=0", 6), ("do=1a row=3 ballot=0", 6), ("do=1a row=257 ballot=0", 6),
        ("do=1a row=1 ballot=16", 6), ("do=1a row=1 ballot=255", 6), ("do=1a row=1 ballot=256", 6),
        ("do=1a row=4294967295 ballot=4294967295", 6),
        ("do=1b row=1 ballot=0 node=1", 6), ("do=1b row=1 ballot=0 node=256", 6), ("do=1b row=3 ballot=0 node=0", 6),
        ("do=1b row=1 ballot=16 node=0", 6),
        ("do=1c row=1 ballot=0 tube=0", 6), ("do=1c row=1 ballot=0 tube=65", 6), ("do=1c row=1 ballot=0 tube=257", 6),
        ("do=1c row=0 ballot=0 tube=1", 6), ("do=1c row=1 ballot=17 tube=1", 6),
        ("do=2av row=1 ballot=0 node=0 tube=0", 6), ("do=2av row=1 ballot=0 node=8 tube=1", 6),
        ("do=2av row=9 ballot=0 node=0 tube=1", 6), ("do=2av row=1 ballot=255 node=0 tube=1", 6),
        ("do=2b row=1 ballot=0 node=0 tube=0", 6), ("do=2b row=1 ballot=0 node=1 tube=1", 6),
        ("do=2b row=1 ballot=256 node=0 tube=1", 6), ("do=2b row=0 ballot=0 node=0 tube=1", 6),
        ("do=hear node=0 message=0", 6), ("do=hear node=1 message=0", 6), ("do=hear node=0 message=4294967295", 6),
        ("do=scan station=256 serial=0", 6), ("do=scan station=4294967295 serial=4294967295", 6),
        ("do=foreign2av row=1 ballot=0 node=1 tube=1", 6), ("do=foreign2av row=1 ballot=0 node=0 tube=0", 6),
        ("do=foreign2b row=1 ballot=16 node=0 tube=1", 6), ("do=foreign2b row=3 ballot=0 node=0 tube=1", 6),
        ("do=foreign1b row=1 ballot=0 node=1 mbal=255 mval=0 pairs=", 6),
        ("do=foreign1b row=1 ballot=0 node=0 mbal=16 mval=0 pairs=", 6),
        ("do=foreign1b row=1 ballot=0 node=0 mbal=254 mval=0 pairs=", 6),
        ("do=foreign1b row=1 ballot=0 node=0 mbal=256 mval=0 pairs=", 6),
        ("do=foreign1b row=1 ballot=0 node=0 mbal=511 mval=0 pairs=", 6),
        ("do=foreign1b row=1 ballot=0 node=0 mbal=255 mval=65 pairs=", 6),
        ("do=foreign1b row=1 ballot=0 node=0 mbal=255 mval=256 pairs=", 6),
        ("do=foreign1b row=1 ballot=0 node=0 mbal=255 mval=0 pairs=0:0", 6),
        ("do=foreign1b row=1 ballot=0 node=0 mbal=255 mval=0 pairs=1:16", 6),
        ("do=foreign1b row=1 ballot=0 node=0 mbal=255 mval=0 pairs=1:255", 6),
        ("do=foreign1b row=1 ballot=0 node=0 mbal=255 mval=0 pairs=257:0", 6),
        ("do=foreign1b row=1 ballot=0 node=0 mbal=255 mval=0 pairs=1:0,1:0", 6),
        ("do=foreign1b row=1 ballot=0 node=0 mbal=255 mval=0 pairs=1:1,1:0", 6),
        ("do=foreign1b row=1 ballot=0 node=0 mbal=255 mval=0 pairs=2:0,1:0", 6),
        ("do=foreign1b row=1 ballot=255 node=0 mbal=255 mval=0 pairs=", 6),
        ("do=foreign1b row=1 ballot=0 node=0 mbal=255 mval=0 pairs=4294967295:4294967295", 6),
    ], waiting([1]) + total(1, 0, 0, 1))
    session("refusal-07", head, scans(1) + [
        ("do=1c row=1 ballot=0 tube=2", 7), ("do=1c row=1 ballot=0 tube=64", 7),
        ("do=2av row=1 ballot=0 node=0 tube=2", 7), ("do=2b row=1 ballot=0 node=0 tube=2", 7),
        ("do=foreign2av row=1 ballot=0 node=0 tube=2", 7), ("do=foreign2b row=1 ballot=0 node=0 tube=2", 7),
        ("do=foreign1b row=1 ballot=0 node=0 mbal=255 mval=2 pairs=", 7),
        ("do=foreign1b row=1 ballot=0 node=0 mbal=255 mval=0 pairs=1:0,2:0", 7),
        ("do=foreign1b row=1 ballot=0 node=0 mbal=255 mval=1 pairs=64:15", 7),
        ("do=foreign1b row=1 ballot=0 node=0 mbal=255 mval=2 pairs=2:0,1:0", 6),
        ("do=foreign1b row=1 ballot=0 node=0 mbal=16 mval=2 pairs=", 6),
        ("do=2av row=1 ballot=0 node=1 tube=2", 6),
        ("do=scan station=3 serial=1", (0, 2)),
        ("do=1c row=1 ballot=0 tube=2", 0),
    ], waiting([1, 2]) + total(2, 0, 0, 2))
    session("refusal-08", head, scans(1) + all_right([
        "do=1a row=1 ballot=3", "do=1a row=1 ballot=5", "do=1b row=1 ballot=5 node=0"]) + [
        ("do=1b row=1 ballot=5 node=0", 8), ("do=1b row=1 ballot=3 node=0", 8), ("do=1b row=1 ballot=0 node=0", 8),
        ("do=2av row=1 ballot=4 node=0 tube=1", 8), ("do=2b row=1 ballot=4 node=0 tube=1", 8),
        ("do=2av row=1 ballot=4 node=0 tube=2", 7), ("do=2b row=1 ballot=0 node=0 tube=2", 7),
        ("do=2av row=1 ballot=5 node=0 tube=1", 9), ("do=2b row=1 ballot=5 node=0 tube=1", 12),
        ("do=2b row=2 ballot=0 node=0 tube=1", 12),
    ], waiting([1]) + total(1, 0, 0, 1))
    session("refusal-09-case06-case07", head, scans(1) + [
        ("do=1b row=1 ballot=0 node=0", 9), ("do=1a row=1 ballot=0", 0), ("do=1b row=2 ballot=0 node=0", 9),
        ("do=1b row=1 ballot=1 node=0", 9), ("do=1b row=1 ballot=0 node=0", 0), ("do=1b row=1 ballot=0 node=0", 8),
        ("do=2av row=1 ballot=0 node=0 tube=1", 9), ("do=1c row=2 ballot=0 tube=1", 0),
        ("do=2av row=1 ballot=0 node=0 tube=1", 9), ("do=1c row=1 ballot=1 tube=1", 0),
        ("do=2av row=1 ballot=0 node=0 tube=1", 9), ("do=1c row=1 ballot=0 tube=1", 0),
        ("do=2av row=1 ballot=0 node=0 tube=1", 11),
    ], waiting([1]) + total(1, 0, 0, 1))
    relay = all_right(["do=1a row=1 ballot=2", "do=1b row=1 ballot=2 node=0", "do=hear node=0 message=1",
                       "do=1c row=1 ballot=2 tube=1", "do=1c row=1 ballot=2 tube=2",
                       "do=2av row=1 ballot=2 node=0 tube=1"])
    session("refusal-10-case08", head, scans(2) + relay + [
        ("do=2av row=1 ballot=2 node=0 tube=1", 10), ("do=2av row=1 ballot=2 node=0 tube=2", 10),
        ("do=2av row=1 ballot=1 node=0 tube=1", 8), ("do=2b row=1 ballot=2 node=0 tube=2", 12),
        ("do=2b row=1 ballot=2 node=0 tube=1", 0), ("do=2b row=1 ballot=2 node=0 tube=1", 0),
    ], ["row=1 tube=1 station=3 serial=0"] + waiting([2]) + total(2, 1, 0, 1))
    session("refusal-12", four_room(1), scans(2) + all_right([
        "do=foreign2av row=1 ballot=1 node=0 tube=1", "do=foreign2av row=1 ballot=1 node=1 tube=1",
        "do=foreign2av row=1 ballot=1 node=2 tube=2", "do=foreign2av row=1 ballot=1 node=3 tube=2"]) + [
        ("do=2b row=1 ballot=1 node=0 tube=1", 12), ("do=2b row=1 ballot=1 node=3 tube=2", 12),
        ("do=foreign2av row=1 ballot=0 node=2 tube=1", 0), ("do=2b row=1 ballot=1 node=0 tube=1", 12),
        ("do=foreign2av row=1 ballot=1 node=2 tube=1", 0), ("do=2b row=1 ballot=1 node=3 tube=1", 0),
        ("do=2b row=1 ballot=0 node=3 tube=1", 8), ("do=2b row=1 ballot=1 node=0 tube=1", 0),
        ("do=2b row=1 ballot=1 node=1 tube=1", 0),
    ], ["row=1 tube=1 station=3 serial=0"] + waiting([2]) + total(2, 1, 0, 1))
    session("refusal-13", head, scans(1) + all_right([
        "do=1a row=1 ballot=0", "do=1c row=1 ballot=0 tube=1", "do=foreign2av row=1 ballot=0 node=0 tube=1",
        "do=foreign2b row=1 ballot=0 node=0 tube=1", "do=1b row=1 ballot=0 node=0"]) + [
        ("do=hear node=0 message=0", 13), ("do=hear node=0 message=1", 13), ("do=hear node=0 message=2", 13),
        ("do=hear node=0 message=3", 13), ("do=hear node=0 message=4", 0), ("do=hear node=0 message=4", 0),
        ("do=hear node=0 message=5", 6), ("do=hear node=1 message=0", 6), ("do=hear node=0 message=260", 6),
    ], ["row=1 tube=1 station=3 serial=0"] + total(1, 1, 0, 0))
    session("refusal-16", head, scans(64) + [
        ("do=scan station=3 serial=64", 16), ("do=scan station=4 serial=0", 16),
        ("do=scan station=256 serial=0", 6), ("do=scan station=3 serial=0", (0, 1)),
        ("do=scan station=3 serial=63", (0, 64)), ("do=scan station=259 serial=0", 6),
        ("do=1c row=1 ballot=0 tube=64", 0), ("do=1c row=1 ballot=0 tube=65", 6),
    ], waiting(range(1, 65)) + total(64, 0, 0, 64))
    session("scans-known-again", head, [
        ("do=scan station=0 serial=0", (0, 1)), ("do=scan station=255 serial=4294967295", (0, 2)),
        ("do=scan station=0 serial=0", (0, 1)), ("do=scan station=255 serial=0", (0, 3)),
        ("do=scan station=0 serial=4294967295", (0, 4)), ("do=scan station=255 serial=4294967295", (0, 2)),
    ], ["waiting=1 station=0 serial=0", "waiting=2 station=255 serial=4294967295", "waiting=3 station=255 serial=0",
        "waiting=4 station=0 serial=4294967295"] + total(4, 0, 0, 4))


# ---- known safe ---------------------------------------------------------------------------

def post_1b(ballot, node, mbal, mval, pairs=""):
    return (f"do=foreign1b row=1 ballot={ballot} node={node} mbal={mbal} mval={mval} pairs={pairs}", 0)


def hears(node, *numbers):
    return [(f"do=hear node={node} message={number}", 0) for number in numbers]


def relay(ballot, node, tube, answer):
    return [(f"do=2av row=1 ballot={ballot} node={node} tube={tube}", answer)]


def offer(ballot, *tubes):
    return [(f"do=1c row=1 ballot={ballot} tube={tube}", 0) for tube in tubes]


def known_safe():
    end = waiting([1, 2]) + total(2, 0, 0, 2)
    session("case09-refusal-11", four_room(), scans(2) + all_right([
        "do=1a row=1 ballot=0", "do=1b row=1 ballot=0 node=0", "do=1b row=1 ballot=0 node=1",
        "do=1b row=1 ballot=0 node=2"]) + offer(0, 1, 2) + relay(0, 3, 1, 11) + hears(3, 1, 2) + relay(0, 3, 1, 11)
        + relay(0, 3, 2, 11) + hears(0, 1, 2, 3) + relay(0, 3, 1, 11) + hears(3, 3) + relay(0, 3, 2, 0)
        + relay(0, 0, 1, 0) + relay(0, 1, 1, 11), end)
    session("case10", four_room(), scans(2) + [
        post_1b(1, 0, 0, 1, "1:0"), post_1b(1, 1, 255, 0, "1:0"), post_1b(1, 2, 255, 0, "1:0")] + offer(1, 1)
        + hears(3, 0, 1, 2) + relay(1, 3, 1, 11), end)
    session("case11", four_room(), scans(2) + [
        post_1b(2, 0, 0, 1), post_1b(2, 1, 255, 0, "1:1"), post_1b(2, 2, 255, 0, "1:1")] + offer(2, 1, 2)
        + hears(3, 0, 1, 2) + relay(2, 3, 2, 11) + relay(2, 3, 1, 0), end)
    session("safe-several-messages-of-one-node", four_room(), scans(2) + [
        post_1b(2, 0, 0, 1), post_1b(2, 1, 255, 0), post_1b(2, 2, 255, 0),
        post_1b(2, 0, 9, 2, "1:1"), post_1b(2, 1, 9, 2, "1:1")] + offer(2, 1, 2)
        + hears(3, 0, 1, 2) + relay(2, 3, 1, 11) + hears(3, 3) + relay(2, 3, 1, 11) + hears(3, 4)
        + relay(2, 3, 2, 11) + relay(2, 3, 1, 0), end)
    session("safe-mval-must-be-the-tube-at-c", four_room(), scans(2) + [
        post_1b(2, 0, 0, 2), post_1b(2, 1, 255, 0, "1:1"), post_1b(2, 2, 255, 0, "1:1")] + offer(2, 1)
        + hears(3, 0, 1, 2) + relay(2, 3, 1, 11), end)
    session("safe-mval-is-free-below-c", four_room(), scans(2) + [
        post_1b(3, 0, 0, 2), post_1b(3, 1, 1, 1, "1:2"), post_1b(3, 2, 255, 0, "1:2")] + offer(3, 1, 2)
        + hears(3, 0, 1, 2) + relay(3, 3, 2, 11) + relay(3, 3, 1, 0), end)
    session("safe-c-is-below-the-ballot", four_room(), scans(2) + [
        post_1b(1, 0, 1, 1, "1:2"), post_1b(1, 1, 1, 1, "1:2"), post_1b(1, 2, 1, 1, "1:2")] + offer(1, 1)
        + hears(3, 0, 1, 2) + relay(1, 3, 1, 11), end)
    session("safe-no-c-in-ballot-0", four_room(), scans(2) + [
        post_1b(0, 0, 0, 1, "1:15"), post_1b(0, 1, 255, 0, "1:15"), post_1b(0, 2, 255, 0, "1:15")] + offer(0, 1)
        + hears(3, 0, 1, 2) + relay(0, 3, 1, 11), end)
    session("safe-none-is-mbal-alone", four_room(), scans(2) + [
        post_1b(1, 0, 255, 1), post_1b(1, 1, 255, 2), post_1b(1, 2, 255, 0)] + offer(1, 1)
        + hears(3, 0, 1, 2) + relay(1, 3, 1, 0), end)
    session("safe-weak-needs-a-whole-set", four_room(), scans(2) + [
        post_1b(2, 0, 0, 1), post_1b(2, 1, 255, 0, "1:1"), post_1b(2, 2, 255, 0, "2:1")] + offer(2, 1)
        + hears(3, 0, 1, 2) + relay(2, 3, 1, 11), end)
    session("safe-other-row-or-ballot-does-not-count", four_room(2), scans(2) + [
        post_1b(0, 0, 255, 0), post_1b(0, 1, 255, 0),
        ("do=foreign1b row=2 ballot=0 node=2 mbal=255 mval=0 pairs=", 0), post_1b(1, 2, 255, 0)] + offer(0, 1)
        + hears(3, 0, 1, 2, 3) + relay(0, 3, 1, 11), end)
    two_ballots = (all_right(["do=1a row=1 ballot=0"] + [f"do=1b row=1 ballot=0 node={n}" for n in (0, 1, 2)])
                   + offer(0, 1) + [step for node in (0, 1, 2) for step in hears(node, 1, 2, 3)]
                   + [step for node in (0, 1, 2) for step in relay(0, node, 1, 0)]
                   + all_right(["do=2b row=1 ballot=0 node=0 tube=1", "do=1a row=1 ballot=1"]
                               + [f"do=1b row=1 ballot=1 node={n}" for n in (1, 2, 3)])
                   + offer(1, 1, 2) + hears(1, 10, 11, 12) + hears(2, 10, 11, 12)
                   + relay(1, 1, 1, 0) + relay(1, 2, 1, 0)
                   + all_right(["do=1a row=1 ballot=2"] + [f"do=1b row=1 ballot=2 node={n}" for n in (0, 1, 2)])
                   + offer(2, 1, 2) + hears(0, 18, 19) + relay(2, 0, 1, 11) + hears(0, 20))
    session("safe-by-a-vote-over-three-ballots", four_room(), scans(2) + two_ballots
            + relay(2, 0, 2, 11) + relay(2, 0, 1, 0), end)


# ---- the board ----------------------------------------------------------------------------

def boards():
    session("case12-capacity-1", one_room(1, 1),
            [("do=1a row=1 ballot=0", 0), ("do=1a row=1 ballot=0", 0), ("do=1a row=1 ballot=1", 15)],
            total(0, 0, 0, 0))
    session("refusal-15-of-each-step", one_room(1, 4), scans(1) + all_right([
        "do=1a row=1 ballot=0", "do=1b row=1 ballot=0 node=0", "do=hear node=0 message=1",
        "do=1c row=1 ballot=0 tube=1", "do=1a row=1 ballot=1"]) + [
        ("do=1a row=1 ballot=2", 15), ("do=1c row=1 ballot=1 tube=1", 15), ("do=1b row=1 ballot=1 node=0", 15),
        ("do=1b row=1 ballot=2 node=0", 9), ("do=1b row=1 ballot=0 node=0", 8),
        ("do=2av row=1 ballot=0 node=0 tube=1", 15), ("do=2b row=1 ballot=0 node=0 tube=1", 12),
        ("do=foreign2av row=1 ballot=0 node=0 tube=1", 15), ("do=foreign2b row=1 ballot=0 node=0 tube=1", 15),
        ("do=foreign1b row=1 ballot=0 node=0 mbal=0 mval=0 pairs=", 15),
        ("do=foreign1b row=1 ballot=0 node=0 mbal=255 mval=0 pairs=", 0),
        ("do=1c row=1 ballot=0 tube=2", 7), ("do=1c row=1 ballot=0 tube=1", 0), ("do=1a row=1 ballot=1", 0),
    ], waiting([1]) + total(1, 0, 0, 1))
    session("refusal-15-of-2b", one_room(1, 1), scans(1) + [
        ("do=foreign2av row=1 ballot=0 node=0 tube=1", 0), ("do=2b row=1 ballot=0 node=0 tube=1", 15),
        ("do=2b row=1 ballot=1 node=0 tube=1", 12)], waiting([1]) + total(1, 0, 0, 1))
    session("full-board-takes-a-1b-already-posted", one_room(1, 2), [
        ("do=1a row=1 ballot=0", 0), ("do=foreign1b row=1 ballot=0 node=0 mbal=255 mval=0 pairs=", 0),
        ("do=1b row=1 ballot=0 node=0", 0), ("do=1b row=1 ballot=0 node=0", 8), ("do=hear node=0 message=1", 0),
        ("do=hear node=0 message=2", 6)], total(0, 0, 0, 0))
    session("full-board-takes-2av-and-2b-already-posted", one_room(1, 5), scans(1) + [
        ("do=1a row=1 ballot=0", 0), ("do=1b row=1 ballot=0 node=0", 0), ("do=hear node=0 message=1", 0),
        ("do=1c row=1 ballot=0 tube=1", 0), ("do=foreign2av row=1 ballot=0 node=0 tube=1", 0),
        ("do=foreign2b row=1 ballot=0 node=0 tube=1", 0), ("do=2av row=1 ballot=0 node=0 tube=1", 0),
        ("do=2av row=1 ballot=0 node=0 tube=1", 10), ("do=2b row=1 ballot=0 node=0 tube=1", 0)],
        ["row=1 tube=1 station=3 serial=0"] + total(1, 1, 0, 0))
    fill = [(f"do=1a row={row} ballot={ballot}", 0) for row in range(1, 65) for ballot in range(16)]
    assert len(fill) == 1024
    session("capacity-1024-full", one_room(64, 1024), scans(1) + fill + [
        ("do=1c row=1 ballot=0 tube=1", 15), ("do=1a row=64 ballot=15", 0), ("do=1b row=64 ballot=15 node=0", 15),
        ("do=hear node=0 message=1023", 13), ("do=hear node=0 message=1024", 6),
        ("do=foreign2b row=1 ballot=0 node=0 tube=1", 15), ("do=1a row=65 ballot=0", 6)],
        waiting([1]) + total(1, 0, 0, 1))
    session("hear-message-1023", one_room(64, 1024), scans(1) + fill[:-1] + [
        ("do=1b row=1 ballot=0 node=0", 0), ("do=hear node=0 message=1023", 0), ("do=hear node=0 message=1022", 13),
        ("do=2b row=1 ballot=0 node=0 tube=1", 12), ("do=1a row=64 ballot=15", 15)],
        waiting([1]) + total(1, 0, 0, 1))
    session("ballot-15-and-16", one_room(1, 16), scans(1) + all_right([
        "do=1a row=1 ballot=15", "do=1b row=1 ballot=15 node=0", "do=hear node=0 message=1",
        "do=1c row=1 ballot=15 tube=1", "do=2av row=1 ballot=15 node=0 tube=1",
        "do=2b row=1 ballot=15 node=0 tube=1"]) + [
        ("do=1a row=1 ballot=16", 6), ("do=1b row=1 ballot=16 node=0", 6), ("do=1c row=1 ballot=16 tube=1", 6),
        ("do=2av row=1 ballot=16 node=0 tube=1", 6), ("do=2b row=1 ballot=16 node=0 tube=1", 6)],
        ["row=1 tube=1 station=3 serial=0"] + total(1, 1, 0, 0))
    session("rows-64", one_room(64, 64), scans(64) + [vote(row, 65 - row) for row in range(1, 65)]
            + [("do=foreign2b row=65 ballot=0 node=0 tube=1", 6), ("do=foreign2b row=1 ballot=1 node=0 tube=1", 15)],
            [f"row={row} tube={65 - row} station=3 serial={64 - row}" for row in range(1, 65)] + total(64, 64, 0, 0))
    session("2b-without-1b-bars-the-1b", one_room(1, 8), scans(1) + [
        ("do=1a row=1 ballot=4", 0), ("do=foreign2av row=1 ballot=4 node=0 tube=1", 0),
        ("do=2b row=1 ballot=4 node=0 tube=1", 0), ("do=1b row=1 ballot=4 node=0", 8),
        ("do=1a row=1 ballot=5", 0), ("do=1b row=1 ballot=5 node=0", 0),
        ("do=foreign1b row=1 ballot=5 node=0 mbal=4 mval=1 pairs=", 0),
        ("do=hear node=0 message=5", 6), ("do=hear node=0 message=4", 0)],
        ["row=1 tube=1 station=3 serial=0"] + total(1, 1, 0, 0))


def pairs():
    sixteen = ",".join(f"1:{ballot}" for ballot in range(16))
    by_tube = ",".join(f"{tube}:0" for tube in range(1, 17))
    front = "do=foreign1b row=1 ballot=0 node=0 mbal=255 mval=0 pairs="
    session("pairs-16-and-17", one_room(1, 8), scans(17) + [
        (front + sixteen, 0), (front + by_tube, 0), (front + by_tube + ",17:0", 6), (front + sixteen + ",1:15", 6),
        (front + by_tube + ",17:4294967295", 6), (front + by_tube + ",17:4294967296", 19),
        (front + "4294967296:0", 19), (front + by_tube + ",", 19), (front + by_tube + ",17", 19),
        (front + ",".join(["1:0"] * 36), 6), (front + "1:0,2:0,1:1,2:1", 0), (front + "1:0,1:1,2:0", 6),
        (front + "1:0,2:0,1:1,2:1", 0)],
        waiting(range(1, 18)) + total(17, 0, 0, 17))
    session("bad-pairs", one_room(1, 8), scans(1) + [
        (front + bad, 19) for bad in ("1:", ":0", "1", ",", "1:0,", ",1:0", "1:0,,1:1", "01:0", "1:00", "1:0 ", " 1:0",
                                      "1:0, 1:1", "1-0", "1:0;1:1", "1:0:1", "none", "-1:0", "+1:0",
                                      "1:4294967296", "99999999999999999999:0")]
        + [(front, 0), (front[:-1], 19), (front + " ", 19),
           ("do=foreign1b row=1 ballot=0 node=0 mbal= mval=0 pairs=", 19),
           ("do=foreign1b row=1 ballot=0 node=0 mbal=none mval=0 pairs=", 19),
           ("do=foreign1b row=1 ballot=0 node=0 mbal=255 mval= pairs=", 19),
           ("do=foreign1b row=1 ballot=0 node=0 mbal=255 mval=0", 19),
           ("do=foreign1b row=1 ballot=0 node=0 mval=0 mbal=255 pairs=", 19),
           ("do=foreign1b row=1 ballot=0 node=0 mbal=15 mval=0 pairs=1:15", 0),
           ("do=foreign1b row=1 ballot=0 node=0 mbal=255 mval=1 pairs=", 0)],
        waiting([1]) + total(1, 0, 0, 1))


# ---- lines --------------------------------------------------------------------------------

def bad_steps():
    bad = ["", " ", "do=", "do", "do=1a", "do=1a ", "do=1a row=1", "do=1a row=1 ", "do=1a row= ballot=0",
           "do=1a row=1 ballot=", "do=1a row=01 ballot=0", "do=1a row=1 ballot=00", "do=1a row=+1 ballot=0",
           "do=1a row=-1 ballot=0", "do=1a row=1  ballot=0", " do=1a row=1 ballot=0", "do=1a row=1 ballot=0 ",
           "do=1a ballot=0 row=1", "do=1a row=1 ballot=0 node=0", "do=1a row=1,ballot=0", "do=1a row=1\tballot=0",
           "do=1a\trow=1 ballot=0", "do=1a row=1 ballot=0\t", "do=1a row=1 ballot=0\r", "\r", "do=1a row=1 ballot=0\0",
           "do=1a row=1 ball\0ot=0", "\0", "DO=1a row=1 ballot=0", "do=1A row=1 ballot=0", "do=1a Row=1 ballot=0",
           "do=1a row=0x1 ballot=0", "do=1a row=1.0 ballot=0", "do=1a row=one ballot=0", "do=1a row =1 ballot=0",
           "do=1a row= 1 ballot=0", "do=1a row=4294967296 ballot=0", "do=1a row=1 ballot=4294967296",
           "do=1a row=18446744073709551617 ballot=0", "do=1a row=4294967297 ballot=0",
           "do=1a row=99999999999999999999999999999999999999 ballot=0", "do=1b row=1 node=0 ballot=0",
           "do=1b row=1 ballot=0", "do=1c row=1 ballot=0 node=0", "do=1c row=1 ballot=0", "do=2a row=1 ballot=0",
           "do=2av row=1 ballot=0 tube=1 node=0", "do=2av row=1 ballot=0 node=0", "do=2b row=1 ballot=0 node=0",
           "do=2avx row=1 ballot=0 node=0 tube=1", "do=hear message=0 node=0", "do=hear node=0",
           "do=hear node=0 number=0", "do=scan serial=1 station=1", "do=scan station=1", "do=scan station=1 serial=",
           "do=scan station=1 serial=4294967296", "do=foreign row=1 ballot=0 node=0 tube=1",
           "do=foreign1a row=1 ballot=0", "do=foreign1c row=1 ballot=0 tube=1",
           "do=foreign2av row=1 ballot=0 tube=1 node=0", "do=foreign2b row=1 ballot=0 node=0",
           "do=foreign2b row=1 ballot=0 node=0 tube=1 pairs=", "do=ask row=1", "do=book", "do=open",
           "nodes=1", "faulty=0", "rows=1", "capacity=16", "quorum=1", "weak=1", "answer=0", "# a note", "row=1",
           "do=1a row=1 ballot=0do=1a row=1 ballot=0", "do=do=1a row=1 ballot=0", "=", "do=1a row=1 ballot=\u00b2",
           "do=1a row=1 ballot=0\x0b", "do=1a row=1 ballot=0\x85", "do=1a row=\u00b9 ballot=0"]
    session("bad-steps", one_room(), [(line, 19) for line in bad] + [("do=1a row=1 ballot=0", 0)], total(0, 0, 0, 0))


def headings():
    good = one_room()
    end = total(0, 0, 0, 0)
    store("heading-empty-input", b"", b"answer=19\n")
    store("heading-one-newline", b"\n", b"answer=19\n")
    store("heading-one-nul", b"\0", b"answer=19\n")
    for count, name in enumerate(("nodes", "faulty", "rows", "capacity", "quorum", "weak")):
        refused("heading-ends-before-" + name, good[:count], 19)
        refused("heading-lacks-" + name, good[:count] + good[count + 1:], 19,
                ["do=1a row=1 ballot=0"] if name == "weak" else [])
        refused("heading-empty-line-before-" + name, good[:count] + [""] + good[count:], 19)
    for count, name in enumerate(("nodes", "faulty", "rows", "capacity")):
        refused("heading-twice-" + name, good[:count + 1] + good[count:], 19)
    for count, name in enumerate(("nodes", "faulty", "rows", "capacity", "quorum", "weak")):
        for sort, line in (("leading-zero", name + "=01"), ("no-number", name + "="), ("too-large", name + "=4294967296"),
                           ("space-after", name + "=1 "), ("carriage-return", name + "=1\r"), ("nul", name + "=1\0"),
                           ("capital", name.capitalize() + "=1"), ("plus", name + "=+1"), ("word", name)):
            refused(f"heading-{name}-{sort}", good[:count] + [line] + good[count + 1:], 19, ["do=1a row=1 ballot=0"])
    store("heading-crlf", text(good).replace(b"\n", b"\r\n"), b"answer=19\n")
    store("heading-faulty-before-nodes", text([good[1], good[0]] + good[2:]), b"answer=19\n")
    store("heading-weak-before-quorum", text(good[:4] + [good[5], good[4]]), b"answer=19\n")
    refused("heading-bad-line-among-quorums", good[:5] + ["quorum=01", "quorum=1", "weak=1"], 19)
    refused("heading-step-among-quorums", good[:5] + ["do=1a row=1 ballot=0", "weak=1"], 19)
    refused("heading-19-before-refused-opening", heading(9, 0, 1, 16, (1,), ()), 19)
    refused("heading-19-before-refused-opening-2", ["nodes=9", "faulty=9", "rows=99", "capacity=9999", "quorum=0"], 19,
            ["do=1a row=1 ballot=0"])
    store("heading-no-steps", text(good), text(["answer=0"] + end))
    store("heading-no-steps-no-newline", text(good)[:-1], text(["answer=0"] + end))
    store("heading-only-weak-lacks-a-newline", text(good[:-1]) + b"weak=1", text(["answer=0"] + end))
    store("heading-nodes-line-of-201-bytes", b"nodes=" + b"1" * 195 + b"\n" + text(good[1:]), b"answer=19\n")
    store("heading-rubbish-of-5000-bytes", b"n" * 5000 + b"\n" + text(good), b"answer=19\n")
    for name, line in (("leading-zero", "weak=01"), ("too-large", "weak=4294967296"), ("empty", ""), ("space", "weak=1 "),
                       ("carriage-return", "weak=1\r"), ("quorum", "quorum=1"), ("nodes", "nodes=1"),
                       ("capacity", "capacity=16"), ("word", "weak"), ("no-number", "weak=")):
        session("steps-begin-at-" + name, good, [(line, 19), ("do=1a row=1 ballot=0", 0), ("weak=1", 19),
                                                 ("do=1a row=2 ballot=0", 6)], end)
    session("steps-weak-line-after-a-step", good + ["weak=1"], [("do=1a row=1 ballot=0", 0), ("weak=1", 19)], end)
    store("steps-blank-lines-at-the-end", text(good) + b"do=1a row=1 ballot=0\n\n\n",
          text(["answer=0", "answer=0", "answer=19", "answer=19"] + end))
    store("steps-crlf", text(good) + b"do=1a row=1 ballot=0\r\ndo=1a row=1 ballot=0\n\r\n",
          text(["answer=0", "answer=19", "answer=0", "answer=19"] + end))
    store("steps-last-line-cut", text(good) + b"do=1a row=1 ballot=", text(["answer=0", "answer=19"] + end))
    store("steps-last-line-of-one-space", text(good) + b" ", text(["answer=0", "answer=19"] + end))


def long_lines():
    front = "do=foreign1b row=1 ballot=0 node=0 mbal=255 mval=0 pairs="
    left = 200 - len(front)
    many = ",".join(["1:0"] * 34)
    last = ",1:" + "1" * 5
    line_200 = front + many + last
    line_200 += "1" * (200 - len(line_200))
    assert left > 0 and len(line_200) == 200, len(line_200)
    step = "do=1a row=1 ballot=0"
    session("line-of-200-bytes", one_room(), [(line_200, 6), (step, 0)], total(0, 0, 0, 0))
    session("line-of-201-bytes", one_room(), [(line_200.replace("1:0,", "10:0,", 1), 19), (step, 0)], total(0, 0, 0, 0))
    session("long-bad-lines-are-one-line", one_room(), [
        ("x" * 200, 19), ("x" * 201, 19), ("x" * 200 + step, 19), ("x" * 199 + step, 19), ("x" * 201 + step, 19),
        ("x" * 256 + step, 19), ("x" * 255, 19), ("x" * 256, 19), ("x" * 257, 19), ("x" * 400 + step, 19),
        ("x" * 5000, 19), (step + " " * 180, 19), (step + " " * 181, 19), (step + "\0" * 300, 19),
        ("do=1a row=" + "0" * 300 + "1 ballot=0", 19), ("do=1a row=1 ballot=" + "9" * 181, 19),
        ("do=1a row=1 ballot=" + "9" * 182, 19), (step, 0)], total(0, 0, 0, 0))
    store("line-of-200-bytes-without-newline", text(one_room()) + line_200.encode(),
          text(["answer=0", "answer=6"] + total(0, 0, 0, 0)))
    store("line-of-201-bytes-without-newline", text(one_room()) + line_200.replace("1:0,", "10:0,", 1).encode(),
          text(["answer=0", "answer=19"] + total(0, 0, 0, 0)))
    store("steps-70000-bytes-without-newline", text(one_room()) + b"z" * 70000,
          text(["answer=0", "answer=19"] + total(0, 0, 0, 0)))
    many = [(f"do=1a row=1 ballot={k % 16}", 0) if k % 3 else ("x" * (k % 41), 19) for k in range(6000)]
    session("steps-six-thousand-lines", one_room(), many, total(0, 0, 0, 0))
    store("steps-every-byte-but-newline", text(one_room()) + b"".join(bytes([b]) + b"\n" for b in range(256) if b != 10),
          text(["answer=0"] + ["answer=19"] * 255 + total(0, 0, 0, 0)))


def main() -> None:
    os.makedirs(FOLDER, exist_ok=True)
    for part in (worked_session, forty_scans, openings, eight_room, books, refusals, known_safe, boards, pairs,
                 bad_steps, headings, long_lines):
        part()
    stored = {name.rsplit(".", 1)[0] for name in os.listdir(FOLDER) if name.endswith((".sheet", ".expected"))}
    for name in sorted(stored - names):
        print("not made here:", name)
    print(len(names), "sessions written")


if __name__ == "__main__":
    main()
