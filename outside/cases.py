"""Cases 1 to 13 of document 01's "Both sides of the lines", each whole from its opening and its posts."""

import room as rules
from room import settle

FOUR_QUORUMS = (7, 11, 13, 14)
FOUR_WEAK = (3, 5, 6, 9, 10, 12)

passed = failed = 0


def expect(case: str, seen, wanted) -> None:
    global passed, failed
    if seen == wanted:
        passed += 1
    else:
        failed += 1
        print(f"case {case}: got {seen!r}, wanted {wanted!r}")


def opened(nodes=4, faulty=1, rows=4, capacity=64, quorums=FOUR_QUORUMS, weak=FOUR_WEAK):
    reply, room = rules.open_room(nodes, faulty, rows, capacity, quorums, weak)
    return reply.number, room


def four_room(tubes=2, **other):
    _, room = opened(**other)
    for serial in range(tubes):
        settle(rules.scan(room, 1, serial))
    return room


def number(call) -> int:
    return settle(call).number


def fresh_1b(room, ballot, nodes, row=1):
    """A 1a and the 1b of these nodes; the numbers of the 1b messages."""
    settle(rules.send_1a(room, row, ballot))
    numbers = []
    for node in nodes:
        expect("setup 1b", number(rules.send_1b(room, row, ballot, node)), 0)
        numbers.append(len(room.board) - 1)
    return numbers


def foreign_1b_heard(room, hearer, row, ballot, posts):
    """Foreign 1b messages (node, mbal, mval, pairs), each heard by the hearer."""
    for node, mbal, mval, pairs in posts:
        expect("setup foreign", number(rules.foreign_1b(room, row, ballot, node, mbal, mval, len(pairs), pairs)), 0)
        expect("setup hear", number(rules.hear(room, hearer, len(room.board) - 1)), 0)


def choose(room, row, tube, ballot=0):
    for node in (0, 1, 2):
        expect("setup vote", number(rules.foreign_2b(room, row, ballot, node, tube)), 0)


def openings():
    expect("1", opened()[0], 0)
    expect("2", opened(quorums=FOUR_QUORUMS + (3,))[0], 3)
    expect("3", opened(weak=FOUR_WEAK + (1,))[0], 4)
    expect("4", opened(quorums=FOUR_QUORUMS + (16,))[0], 2)
    expect("5", opened(nodes=1, faulty=1, quorums=(1,), weak=(1,))[0], 3)


def repeats():
    room = four_room()
    expect("6", number(rules.send_1b(room, 1, 0, 0)), 9)
    settle(rules.send_1a(room, 1, 0))
    expect("7 first", number(rules.send_1b(room, 1, 0, 0)), 0)
    expect("7", number(rules.send_1b(room, 1, 0, 0)), 8)

    room = four_room()
    for message in fresh_1b(room, 0, (0, 1, 2)):
        settle(rules.hear(room, 0, message))
    settle(rules.send_1c(room, 1, 0, 1))
    expect("8 first", number(rules.send_2av(room, 1, 0, 0, 1)), 0)
    expect("8", number(rules.send_2av(room, 1, 0, 0, 1)), 10)


def known_safe():
    room = four_room()
    messages = fresh_1b(room, 0, (0, 1, 2))
    for message in messages[:2]:
        settle(rules.hear(room, 3, message))
    expect("9 two", [rules.known_safe(room, 3, 1, 0, tube) for tube in range(1, 65)], [False] * 64)
    settle(rules.send_1c(room, 1, 0, 1))
    expect("9 two, step", number(rules.send_2av(room, 1, 0, 3, 1)), 11)
    settle(rules.hear(room, 3, messages[2]))
    expect("9 three", [rules.known_safe(room, 3, 1, 0, tube) for tube in range(1, 65)], [True] * 64)
    expect("9 three, another node", rules.known_safe(room, 0, 1, 0, 1), False)
    expect("9 three, step", number(rules.send_2av(room, 1, 0, 3, 1)), 0)

    room = four_room()
    foreign_1b_heard(room, 3, 1, 1, [(0, 0, 1, [(1, 0)]), (1, 255, 0, [(1, 0)]), (2, 255, 0, [(1, 0)])])
    settle(rules.send_1c(room, 1, 1, 1))
    expect("10", number(rules.send_2av(room, 1, 1, 3, 1)), 11)

    room = four_room()
    foreign_1b_heard(room, 3, 1, 2, [(0, 0, 1, []), (1, 255, 0, [(1, 1)]), (2, 255, 0, [(1, 1)])])
    settle(rules.send_1c(room, 1, 2, 1))
    settle(rules.send_1c(room, 1, 2, 2))
    expect("11 tube 1", rules.known_safe(room, 3, 1, 2, 1), True)
    expect("11 tube 2", rules.known_safe(room, 3, 1, 2, 2), False)
    expect("11 tube 2, step", number(rules.send_2av(room, 1, 2, 3, 2)), 11)
    expect("11 tube 1, step", number(rules.send_2av(room, 1, 2, 3, 1)), 0)


def full_board():
    room = four_room(capacity=1)
    expect("12", [number(rules.send_1a(room, 1, ballot)) for ballot in (0, 0, 1)], [0, 0, 15])


def book():
    room = four_room()
    choose(room, 1, 1)
    choose(room, 2, 1)
    choose(room, 4, 2)
    expect("13", rules.read_book(room),
           rules.Book((rules.BookRow(1, 1, False), rules.BookRow(2, 1, True)), (2,), rules.UNCHOSEN))
    expect("13 asked", [settle(rules.ask(room, row)).values for row in (1, 2, 3, 4)], [(1,), (1,), (0,), (2,)])


def main() -> int:
    for part in (openings, repeats, known_safe, full_board, book):
        part()
    print(f"{passed} passed, {failed} failed")
    return 1 if failed else 0


if __name__ == "__main__":
    raise SystemExit(main())
