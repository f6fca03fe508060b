"""The frames program: reads calls on whole memory images from standard input and writes each answer with the memory afterwards."""

import io
import struct
import sys
from dataclasses import dataclass
from typing import List, Optional, Tuple

if __package__ in (None, ""):
    import room as rules
else:
    from . import room as rules

HOUSE = struct.Struct("<BBBHBB64s64sB320sBH")
SCAN = struct.Struct("<BI")
FRONT = struct.Struct("<B8I32s%ds7I" % HOUSE.size)
ANSWER = struct.Struct("<B3I")

MESSAGE_SIZE, CELL_SIZE, HEARD_SIZE = 40, 36, 128
LEAST_WAITING = 64
LONGEST_LIST = 70
LONGEST_AREAS = (42000, 19000, 1200, 200, 200)

(OPEN, SEND_1A, SEND_1B, SEND_1C, SEND_2AV, SEND_2B, HEAR, SCAN_TUBE, FOREIGN, ASK, BOOK) = range(11)
CALL_NAMES = ("open", "1a", "1b", "1c", "2av", "2b", "hear", "scan", "foreign", "ask", "book")
ARGUMENT_COUNTS = {SEND_1A: 2, SEND_1B: 3, SEND_1C: 3, SEND_2AV: 4, SEND_2B: 4, HEAR: 2, SCAN_TUBE: 2, ASK: 1}
BUILDERS = {SEND_1A: rules.send_1a, SEND_1B: rules.send_1b, SEND_1C: rules.send_1c, SEND_2AV: rules.send_2av,
            SEND_2B: rules.send_2b, HEAR: rules.hear, SCAN_TUBE: rules.scan, ASK: rules.ask}


class NotInForm(Exception):
    """Memory that is not as document 01 says."""


class CannotHold(Exception):
    """A frame with an area or a list longer than a frame may have, or of a call that does not exist."""


@dataclass(frozen=True)
class Memory:
    """The lent bytes: the house image and the five areas."""
    house: bytes
    board: bytes
    cells: bytes
    heard: bytes
    book: bytes
    waiting: bytes

    def joined(self) -> bytes:
        return self.house + self.board + self.cells + self.heard + self.book + self.waiting


@dataclass(frozen=True)
class Frame:
    call: int
    arguments: Tuple[int, ...]
    pairs: Tuple[Tuple[int, int], ...]
    quorums: Tuple[int, ...]
    weak: Tuple[int, ...]
    memory: Memory


# ---- the house image ----------------------------------------------------------------------

@dataclass(frozen=True)
class HouseImage:
    nodes: int
    faulty: int
    rows: int
    capacity: int
    quorum_count: int
    weak_count: int
    quorum_table: bytes
    weak_table: bytes
    scanned: int
    intake: bytes
    marks: int
    messages: int

    @staticmethod
    def read(image: bytes) -> "HouseImage":
        return HouseImage(*HOUSE.unpack(image))

    def counts_in_limits(self) -> bool:
        return (rules.counts_in_limits(self.nodes, self.faulty, self.rows, self.capacity,
                                       self.quorum_count, self.weak_count)
                and self.messages <= self.capacity and self.scanned <= rules.HIGHEST_TUBE)

    def areas_long_enough(self, memory: Memory) -> bool:
        return areas_long_enough(self.nodes, self.rows, self.capacity, memory)


def areas_long_enough(nodes: int, rows: int, capacity: int, memory: Memory) -> bool:
    return (len(memory.board) >= MESSAGE_SIZE * capacity
            and len(memory.cells) >= CELL_SIZE * nodes * rows
            and len(memory.heard) >= HEARD_SIZE * nodes)


def mask_of(nodes) -> int:
    return sum(1 << node for node in nodes)


def over(old: bytes, new: bytes) -> bytes:
    """The old bytes with the new ones laid over their beginning."""
    return new + old[len(new):]


def house_image(room: rules.Room, old: bytes) -> bytes:
    """The room's house image; slots past a count stay as they were."""
    before = HouseImage.read(old)
    return HOUSE.pack(
        room.nodes, room.faulty, room.rows, room.capacity, len(room.quorums), len(room.weak),
        over(before.quorum_table, bytes(mask_of(one) for one in room.quorums)),
        over(before.weak_table, bytes(mask_of(one) for one in room.weak)),
        len(room.intake), over(before.intake, b"".join(SCAN.pack(*scan) for scan in room.intake)),
        mask_of(room.marks), len(room.board))


# ---- messages and cells -------------------------------------------------------------------

def written_ballot(ballot: Optional[int]) -> int:
    return rules.NO_BALLOT if ballot is None else ballot


def written_tube(tube: Optional[int]) -> int:
    return rules.NO_TUBE if tube is None else tube


def pairs_image(pairs) -> bytes:
    return bytes([len(pairs)]) + b"".join(bytes(pair) for pair in pairs).ljust(2 * rules.MOST_PAIRS, b"\0")


def message_image(post: rules.Post) -> bytes:
    if isinstance(post, rules.Post1a):
        front = (rules.KIND_1A, post.row, post.ballot)
    elif isinstance(post, rules.Post1c):
        front = (rules.KIND_1C, post.row, post.ballot, 0, post.tube)
    elif isinstance(post, rules.Post2av):
        front = (rules.KIND_2AV, post.row, post.ballot, post.node, post.tube)
    elif isinstance(post, rules.Post2b):
        front = (rules.KIND_2B, post.row, post.ballot, post.node, post.tube)
    else:
        front = (rules.KIND_1B, post.row, post.ballot, post.node, 0,
                 written_ballot(post.mbal), written_tube(post.mval))
        return bytes(front) + pairs_image(post.pairs)
    return bytes(front).ljust(MESSAGE_SIZE, b"\0")


def cell_image(cell: rules.Cell) -> bytes:
    return bytes([written_ballot(cell.max_bal), written_ballot(cell.max_vbal),
                  written_tube(cell.max_vval)]) + pairs_image(cell.pairs)


def demand(good: bool) -> None:
    if not good:
        raise NotInForm


def pairs_from(image: bytes, scanned: int) -> Tuple[Tuple[int, int], ...]:
    """The pairs of a message or a cell: their count and sixteen places."""
    count, places = image[0], list(zip(image[1::2], image[2::2]))
    demand(rules.pairs_in_limits(count, places))
    used = tuple(places[:count])
    demand(all(tube <= scanned for tube, _ in used))
    return used


def ballot_or_none_from(byte: int) -> Optional[int]:
    demand(rules.is_ballot(byte) or byte == rules.NO_BALLOT)
    return rules.ballot_or_none(byte)


def tube_or_none_from(byte: int, scanned: int) -> Optional[int]:
    demand(byte <= scanned)
    return rules.tube_or_none(byte)


def message_from(image: bytes, nodes: int, rows: int, scanned: int) -> rules.Post:
    kind, row, ballot, node, tube, mbal, mval = image[:7]
    demand(1 <= row <= rows and rules.is_ballot(ballot) and node < nodes)
    if kind == rules.KIND_1A:
        post = rules.Post1a(row, ballot)
    elif kind == rules.KIND_1B:
        post = rules.Post1b(row, ballot, node, ballot_or_none_from(mbal),
                            tube_or_none_from(mval, scanned), pairs_from(image[7:], scanned))
    else:
        demand(1 <= tube <= scanned)
        if kind == rules.KIND_1C:
            post = rules.Post1c(row, ballot, tube)
        elif kind == rules.KIND_2AV:
            post = rules.Post2av(row, ballot, node, tube)
        elif kind == rules.KIND_2B:
            post = rules.Post2b(row, ballot, node, tube)
        else:
            raise NotInForm
    demand(message_image(post) == image)  # nothing stands in the fields its kind lacks
    return post


def cell_from(image: bytes, scanned: int) -> rules.Cell:
    return rules.Cell(ballot_or_none_from(image[0]), ballot_or_none_from(image[1]),
                      tube_or_none_from(image[2], scanned), pairs_from(image[3:], scanned))


# ---- whole memory -------------------------------------------------------------------------

def pieces(area: bytes, size: int, count: int) -> List[bytes]:
    return [area[size * k:size * (k + 1)] for k in range(count)]


def heard_from(memory: Memory, nodes: int):
    heard = set()
    for node, part in enumerate(pieces(memory.heard, HEARD_SIZE, nodes)):
        heard |= {(node, number) for number in rules.members(int.from_bytes(part, "little"))}
    return heard


def room_from(house: HouseImage, memory: Memory) -> rules.Room:
    """The room these bytes hold; NotInForm if they hold none. Counts and lengths have been tested."""
    quorums = [rules.members(mask) for mask in house.quorum_table[:house.quorum_count]]
    weak = [rules.members(mask) for mask in house.weak_table[:house.weak_count]]
    for _, applies in rules.table_tests(house.nodes, house.faulty, quorums, weak):
        demand(not applies())
    intake = [SCAN.unpack(scan) for scan in pieces(house.intake, SCAN.size, house.scanned)]
    demand(len(set(intake)) == len(intake))
    marks = set(rules.members(house.marks))
    demand(marks <= set(range(house.nodes)))
    board = [message_from(image, house.nodes, house.rows, house.scanned)
             for image in pieces(memory.board, MESSAGE_SIZE, house.messages)]
    demand(len(set(board)) == len(board))
    places = [(node, row) for node in range(house.nodes) for row in range(1, house.rows + 1)]
    cells = {place: cell_from(image, house.scanned)
             for place, image in zip(places, pieces(memory.cells, CELL_SIZE, len(places)))}
    heard = heard_from(memory, house.nodes)
    numbers_of_1b = {number for number, post in enumerate(board) if isinstance(post, rules.Post1b)}
    demand({number for _, number in heard} <= numbers_of_1b)
    return rules.Room(house.nodes, house.faulty, house.rows, house.capacity, quorums, weak,
                      intake, board, cells, heard, marks)


def heard_image(room: rules.Room) -> bytes:
    bits = [0] * room.nodes
    for node, number in room.heard:
        bits[node] |= 1 << number
    return b"".join(one.to_bytes(HEARD_SIZE, "little") for one in bits)


def memory_of(room: rules.Room, old: Memory) -> Memory:
    """The room written over the old bytes; spare bytes stay."""
    places = [(node, row) for node in range(room.nodes) for row in range(1, room.rows + 1)]
    return Memory(
        house=house_image(room, old.house),
        board=over(old.board, b"".join(message_image(post) for post in room.board)),
        cells=over(old.cells, b"".join(cell_image(room.cells[place]) for place in places)),
        heard=over(old.heard, heard_image(room)),
        book=old.book, waiting=old.waiting)


# ---- calls --------------------------------------------------------------------------------

def open_frame(frame: Frame, note) -> Tuple[rules.Reply, Memory]:
    nodes, faulty, rows, capacity = frame.arguments[:4]
    opening = (nodes, faulty, rows, capacity, frame.quorums, frame.weak,
               lambda: areas_long_enough(nodes, rows, capacity, frame.memory))
    reply, room = rules.open_room(*opening)
    note(reply.number, rules.applying(rules.opening(*opening)))
    if room is None:
        return reply, frame.memory
    blank = Memory(bytes(HOUSE.size), frame.memory.board, frame.memory.cells, frame.memory.heard,
                   frame.memory.book, frame.memory.waiting)
    return reply, memory_of(room, blank)


def write_book(room: rules.Room, memory: Memory) -> Tuple[rules.Reply, Memory]:
    book = rules.read_book(room)
    rows = bytes(0 if line.void else line.tube for line in book.rows)
    waiting = bytes(book.waiting)
    after = Memory(memory.house, memory.board, memory.cells, memory.heard,
                   over(memory.book, rows), over(memory.waiting, waiting))
    return rules.Reply(0, (len(rows), len(waiting), book.why)), after


def build_call(room: rules.Room, frame: Frame) -> rules.Call:
    if frame.call == FOREIGN:
        return rules.foreign(room, *frame.arguments, list(frame.pairs))
    return BUILDERS[frame.call](room, *frame.arguments[:ARGUMENT_COUNTS[frame.call]])


def lengths_good(house: HouseImage, frame: Frame) -> bool:
    good = house.areas_long_enough(frame.memory)
    if frame.call == BOOK:
        good = good and len(frame.memory.book) >= house.rows and len(frame.memory.waiting) >= LEAST_WAITING
    return good


def refused(number: int, frame: Frame, note, refusals) -> Tuple[rules.Reply, Memory]:
    note(number, refusals)
    return rules.Reply(number), frame.memory


def settle_frame(frame: Frame, note=lambda number, refusals: None) -> Tuple[rules.Reply, Memory]:
    """The reply of a frame's call and the memory afterwards; `note` is told the number and the refusals that apply."""
    if frame.call == OPEN:
        return open_frame(frame, note)
    house = HouseImage.read(frame.memory.house)
    if not house.counts_in_limits():
        return refused(17, frame, note, [17])
    if not lengths_good(house, frame):
        return refused(5, frame, note, [5])
    try:
        room = room_from(house, frame.memory)
    except NotInForm:
        return refused(17, frame, note, [17])
    if frame.call == BOOK:
        note(0, [])
        return write_book(room, frame.memory)
    call = build_call(room, frame)
    refusals = rules.applying(call)
    reply = rules.settle(call)
    note(reply.number, refusals)
    return reply, memory_of(room, frame.memory) if reply.number == 0 else frame.memory


# ---- bytes in and out ---------------------------------------------------------------------

def frame_image(frame: Frame) -> bytes:
    memory = frame.memory
    lengths = (len(frame.quorums), len(frame.weak), len(memory.board), len(memory.cells),
               len(memory.heard), len(memory.book), len(memory.waiting))
    arguments = tuple(frame.arguments) + (0,) * (8 - len(frame.arguments))
    front = FRONT.pack(frame.call, *arguments, b"".join(bytes(pair) for pair in frame.pairs).ljust(32, b"\0"),
                       memory.house, *lengths)
    lists = struct.pack("<%dI" % (lengths[0] + lengths[1]), *frame.quorums, *frame.weak)
    return front + lists + memory.joined()[HOUSE.size:]


class Cut(Exception):
    """The input ends inside a frame."""


def read_frame(take) -> Frame:
    """One frame; take(n) gives the next n bytes or raises Cut."""
    parts = FRONT.unpack(take(FRONT.size))
    call, arguments, pairs, house, lengths = parts[0], parts[1:9], parts[9], parts[10], parts[11:]
    if max(lengths[:2]) > LONGEST_LIST or any(n > most for n, most in zip(lengths[2:], LONGEST_AREAS)):
        raise CannotHold
    if call not in range(len(CALL_NAMES)):
        raise CannotHold
    numbers = struct.unpack("<%dI" % (lengths[0] + lengths[1]), take(4 * (lengths[0] + lengths[1])))
    areas = [take(length) for length in lengths[2:]]
    return Frame(call, arguments, tuple(zip(pairs[::2], pairs[1::2])),
                 numbers[:lengths[0]], numbers[lengths[0]:], Memory(house, *areas))


def taker(stream):
    def take(count: int) -> bytes:
        got = stream.read(count)
        if len(got) < count:
            raise Cut
        return got
    return take


def reply_image(reply: rules.Reply, after: Memory) -> bytes:
    values = tuple(reply.values) + (0,) * (3 - len(reply.values))
    return ANSWER.pack(reply.number, *values) + after.joined()


def answer(request: bytes) -> bytes:
    """The reply bytes of one frame's bytes."""
    return reply_image(*settle_frame(read_frame(taker(io.BytesIO(request)))))


def main() -> None:
    take = taker(sys.stdin.buffer)
    while True:
        try:
            frame = read_frame(take)
        except (Cut, CannotHold):
            break
        sys.stdout.buffer.write(reply_image(*settle_frame(frame)))
    sys.stdout.buffer.flush()


if __name__ == "__main__":
    main()
