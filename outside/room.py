"""The room of document 01: its memory as sets and lists, and every call with its tests and its reply."""

from dataclasses import dataclass, field, replace
from typing import Callable, Dict, FrozenSet, List, Optional, Set, Tuple, Union

MOST_NODES = 8
MOST_FAULTY = 7
MOST_ROWS = 64
MOST_CAPACITY = 1024
MOST_SETS = 64
HIGHEST_BALLOT = 15
HIGHEST_TUBE = 64
HIGHEST_STATION = 255
MOST_PAIRS = 16

NO_BALLOT = 255  # how none is written as a ballot
NO_TUBE = 0      # how none is written as a tube

ROWS_ENDED, UNCHOSEN, SPLIT = 0, 1, 2

Pair = Tuple[int, int]  # (tube, ballot)


# ---- what stands on the board -------------------------------------------------------------

@dataclass(frozen=True)
class Post1a:
    row: int
    ballot: int


@dataclass(frozen=True)
class Post1b:
    row: int
    ballot: int
    node: int
    mbal: Optional[int]
    mval: Optional[int]
    pairs: Tuple[Pair, ...]


@dataclass(frozen=True)
class Post1c:
    row: int
    ballot: int
    tube: int


@dataclass(frozen=True)
class Post2av:
    row: int
    ballot: int
    node: int
    tube: int


@dataclass(frozen=True)
class Post2b:
    row: int
    ballot: int
    node: int
    tube: int


Post = Union[Post1a, Post1b, Post1c, Post2av, Post2b]
KIND_1A, KIND_1B, KIND_1C, KIND_2AV, KIND_2B = 1, 2, 3, 4, 5


@dataclass(frozen=True)
class Cell:
    """What one node remembers of one row; None is none."""
    max_bal: Optional[int] = None
    max_vbal: Optional[int] = None
    max_vval: Optional[int] = None
    pairs: Tuple[Pair, ...] = ()


@dataclass
class Room:
    nodes: int
    faulty: int
    rows: int
    capacity: int
    quorums: List[FrozenSet[int]]
    weak: List[FrozenSet[int]]
    intake: List[Tuple[int, int]] = field(default_factory=list)
    board: List[Post] = field(default_factory=list)
    cells: Dict[Tuple[int, int], Cell] = field(default_factory=dict)
    heard: Set[Tuple[int, int]] = field(default_factory=set)
    marks: Set[int] = field(default_factory=set)

    def __post_init__(self):
        self.standing = set(self.board)
        for node in range(self.nodes):
            for row in range(1, self.rows + 1):
                self.cells.setdefault((node, row), Cell())

    def append(self, post: Post) -> None:
        """Messages are a set: one already there isn't added again."""
        if post not in self.standing:
            self.board.append(post)
            self.standing.add(post)


@dataclass(frozen=True)
class Reply:
    number: int
    values: Tuple[int, ...] = ()


@dataclass
class Call:
    """A call before it is settled: its refusals in the order of the tests, and what it does if none applies."""
    tests: List[Tuple[int, Callable[[], bool]]]
    act: Callable[[], Tuple[int, ...]]


def settle(call: Call) -> Reply:
    for number, applies in call.tests:
        if applies():
            return Reply(number)
    return Reply(0, call.act())


def applying(call: Call) -> List[int]:
    """Every refusal that applies, in the order of the tests; once a field is outside its limits, only the tests that keep a sense."""
    numbers: List[int] = []
    for number, applies in call.tests:
        if 6 in numbers and number not in (7, 13, 15, 16):
            continue
        try:
            if applies():
                numbers.append(number)
        except LookupError:
            pass
    return numbers


# ---- opening ------------------------------------------------------------------------------

def members(mask: int) -> FrozenSet[int]:
    """The nodes a set names, bit 0 being node 0; every bit counts, however high."""
    return frozenset(bit for bit in range(mask.bit_length()) if mask >> bit & 1)


def counts_in_limits(nodes: int, faulty: int, rows: int, capacity: int, quorums: int, weak: int) -> bool:
    return (1 <= nodes <= MOST_NODES and 0 <= faulty <= MOST_FAULTY and 1 <= rows <= MOST_ROWS
            and 1 <= capacity <= MOST_CAPACITY and 1 <= quorums <= MOST_SETS and 1 <= weak <= MOST_SETS)


def table_tests(nodes: int, faulty: int, quorums, weak):
    """The tests 2, 3 and 4 of opening, which memory in form passes too."""
    return [
        (2, lambda: any(node >= nodes for one in [*quorums, *weak] for node in one)),
        (3, lambda: any(len(one & other) <= faulty for one in quorums for other in quorums)),
        (4, lambda: any(len(one) <= faulty for one in weak)),
    ]


def opening_tests(nodes, faulty, rows, capacity, quorums, weak, areas_long_enough: Callable[[], bool]):
    return [
        (1, lambda: not counts_in_limits(nodes, faulty, rows, capacity, len(quorums), len(weak))),
        (5, lambda: not areas_long_enough()),
    ] + table_tests(nodes, faulty, quorums, weak)


def opening(nodes, faulty, rows, capacity, quorum_masks, weak_masks, areas_long_enough=lambda: True) -> Call:
    quorums = [members(mask) for mask in quorum_masks]
    weak = [members(mask) for mask in weak_masks]
    return Call(opening_tests(nodes, faulty, rows, capacity, quorums, weak, areas_long_enough), lambda: ())


def open_room(nodes, faulty, rows, capacity, quorum_masks, weak_masks, areas_long_enough=lambda: True):
    """The reply of the opening and, with reply 0, the room."""
    reply = settle(opening(nodes, faulty, rows, capacity, quorum_masks, weak_masks, areas_long_enough))
    if reply.number != 0:
        return reply, None
    return reply, Room(nodes, faulty, rows, capacity,
                       [members(mask) for mask in quorum_masks], [members(mask) for mask in weak_masks])


# ---- limits -------------------------------------------------------------------------------

def is_row(room: Room, row: int) -> bool:
    return 1 <= row <= room.rows


def is_node(room: Room, node: int) -> bool:
    return 0 <= node < room.nodes


def is_ballot(ballot: int) -> bool:
    return 0 <= ballot <= HIGHEST_BALLOT


def is_tube(tube: int) -> bool:
    return 1 <= tube <= HIGHEST_TUBE


def on_intake(room: Room, tube: int) -> bool:
    return 1 <= tube <= len(room.intake)


def ascending(pairs) -> bool:
    keys = [(ballot, tube) for tube, ballot in pairs]
    return all(earlier < later for earlier, later in zip(keys, keys[1:]))


def pairs_in_limits(count: int, pairs) -> bool:
    """Pairs as they are handed over: the first `count` are used, the others must be 0."""
    if count > MOST_PAIRS:
        return False
    used, unused = pairs[:count], pairs[count:]
    return (all(is_tube(tube) and is_ballot(ballot) for tube, ballot in used)
            and ascending(used) and all(pair == (0, 0) for pair in unused))


def rank(ballot: Optional[int]) -> int:
    """None lies below every ballot."""
    return -1 if ballot is None else ballot


def ballot_or_none(written: int) -> Optional[int]:
    return None if written == NO_BALLOT else written


def tube_or_none(written: int) -> Optional[int]:
    return None if written == NO_TUBE else written


# ---- what is known and chosen -------------------------------------------------------------

def full(sets: List[FrozenSet[int]], nodes: Set[int]) -> bool:
    """Some set of the list lies wholly among these nodes."""
    return any(one <= nodes for one in sets)


def heard_1b(room: Room, node: int, row: int, ballot: int) -> List[Post1b]:
    """The 1b messages of this row and ballot that this node, and no other, has heard."""
    posts = [room.board[number] for hearer, number in room.heard if hearer == node]
    return [post for post in posts if isinstance(post, Post1b) and (post.row, post.ballot) == (row, ballot)]


def safe_outright(room: Room, posts: List[Post1b]) -> bool:
    return full(room.quorums, {post.node for post in posts if post.mbal is None})


def safe_after(room: Room, posts: List[Post1b], c: int, tube: int) -> bool:
    at_most_c = {post.node for post in posts
                 if rank(post.mbal) < c or (post.mbal == c and post.mval == tube)}
    above_c = {post.node for post in posts
               if any(paired == tube and ballot > c for paired, ballot in post.pairs)}
    return full(room.quorums, at_most_c) and full(room.weak, above_c)


def known_safe(room: Room, node: int, row: int, ballot: int, tube: int) -> bool:
    posts = heard_1b(room, node, row, ballot)
    return safe_outright(room, posts) or any(safe_after(room, posts, c, tube) for c in range(ballot))


def relayed(room: Room, row: int, ballot: int, tube: int) -> bool:
    """Some quorum has a 2av for this row, ballot and tube from each of its nodes."""
    return full(room.quorums, {node for node in range(room.nodes)
                               if Post2av(row, ballot, node, tube) in room.standing})


def chosen(room: Room, row: int) -> FrozenSet[int]:
    votes: Dict[Pair, Set[int]] = {}
    for post in room.board:
        if isinstance(post, Post2b) and post.row == row:
            votes.setdefault((post.tube, post.ballot), set()).add(post.node)
    return frozenset(tube for (tube, _), nodes in votes.items() if full(room.quorums, nodes))


@dataclass(frozen=True)
class BookRow:
    row: int
    tube: int
    void: bool


@dataclass(frozen=True)
class Book:
    rows: Tuple[BookRow, ...]
    waiting: Tuple[int, ...]
    why: int


def read_book(room: Room) -> Book:
    rows: List[BookRow] = []
    entered: Set[int] = set()
    why = ROWS_ENDED
    for row in range(1, room.rows + 1):
        tubes = chosen(room, row)
        if len(tubes) != 1:
            why = SPLIT if tubes else UNCHOSEN
            break
        (tube,) = tubes
        rows.append(BookRow(row, tube, tube in entered))
        entered.add(tube)
    waiting = tuple(tube for tube in range(1, len(room.intake) + 1) if tube not in entered)
    return Book(tuple(rows), waiting, why)


# ---- the calls ----------------------------------------------------------------------------

def no_room_for(room: Room, post: Post) -> bool:
    return post not in room.standing and len(room.board) >= room.capacity


def send(room: Room, post: Post) -> Tuple[int, ...]:
    room.append(post)
    return ()


def scan(room: Room, station: int, serial: int) -> Call:
    pair = (station, serial)

    def act():
        if pair not in room.intake:
            room.intake.append(pair)
        return (room.intake.index(pair) + 1,)

    return Call([
        (6, lambda: not 0 <= station <= HIGHEST_STATION),
        (16, lambda: pair not in room.intake and len(room.intake) >= HIGHEST_TUBE),
    ], act)


def send_1a(room: Room, row: int, ballot: int) -> Call:
    post = Post1a(row, ballot)
    return Call([
        (6, lambda: not (is_row(room, row) and is_ballot(ballot))),
        (15, lambda: no_room_for(room, post)),
    ], lambda: send(room, post))


def send_1c(room: Room, row: int, ballot: int, tube: int) -> Call:
    post = Post1c(row, ballot, tube)
    return Call([
        (6, lambda: not (is_row(room, row) and is_ballot(ballot) and is_tube(tube))),
        (7, lambda: not on_intake(room, tube)),
        (15, lambda: no_room_for(room, post)),
    ], lambda: send(room, post))


def send_1b(room: Room, row: int, ballot: int, node: int) -> Call:
    place = (node, row)

    def post():
        cell = room.cells[place]
        return Post1b(row, ballot, node, cell.max_vbal, cell.max_vval, cell.pairs)

    def act():
        room.append(post())
        room.cells[place] = replace(room.cells[place], max_bal=ballot)
        return ()

    return Call([
        (6, lambda: not (is_row(room, row) and is_ballot(ballot) and is_node(room, node))),
        (8, lambda: ballot <= rank(room.cells[place].max_bal)),
        (9, lambda: Post1a(row, ballot) not in room.standing),
        (15, lambda: no_room_for(room, post())),
    ], act)


def within_limits(room: Room, row: int, ballot: int, node: int, tube: int) -> bool:
    return is_row(room, row) and is_ballot(ballot) and is_node(room, node) and is_tube(tube)


def send_2av(room: Room, row: int, ballot: int, node: int, tube: int) -> Call:
    place, post = (node, row), Post2av(row, ballot, node, tube)

    def others():
        return tuple(pair for pair in room.cells[place].pairs if pair[0] != tube)

    def act():
        room.append(post)
        room.cells[place] = replace(room.cells[place], max_bal=ballot, pairs=others() + ((tube, ballot),))
        return ()

    return Call([
        (6, lambda: not within_limits(room, row, ballot, node, tube)),
        (7, lambda: not on_intake(room, tube)),
        (8, lambda: ballot < rank(room.cells[place].max_bal)),
        (9, lambda: Post1c(row, ballot, tube) not in room.standing),
        (10, lambda: any(sent >= ballot for _, sent in room.cells[place].pairs)),
        (11, lambda: not known_safe(room, node, row, ballot, tube)),
        (14, lambda: len(others()) >= MOST_PAIRS),
        (15, lambda: no_room_for(room, post)),
    ], act)


def send_2b(room: Room, row: int, ballot: int, node: int, tube: int) -> Call:
    place, post = (node, row), Post2b(row, ballot, node, tube)

    def act():
        room.append(post)
        room.cells[place] = replace(room.cells[place], max_bal=ballot, max_vbal=ballot, max_vval=tube)
        return ()

    return Call([
        (6, lambda: not within_limits(room, row, ballot, node, tube)),
        (7, lambda: not on_intake(room, tube)),
        (8, lambda: ballot < rank(room.cells[place].max_bal)),
        (12, lambda: not relayed(room, row, ballot, tube)),
        (15, lambda: no_room_for(room, post)),
    ], act)


def hear(room: Room, node: int, number: int) -> Call:
    def act():
        room.heard.add((node, number))
        return ()

    return Call([
        (6, lambda: not (is_node(room, node) and 0 <= number < len(room.board))),
        (13, lambda: not isinstance(room.board[number], Post1b)),
    ], act)


def foreign_act(room: Room, post: Post, node: int):
    def act():
        room.append(post)
        room.marks.add(node)
        return ()
    return act


def foreign_1b(room: Room, row, ballot, node, mbal, mval, count, pairs) -> Call:
    used = tuple(pairs[:count])
    post = Post1b(row, ballot, node, ballot_or_none(mbal), tube_or_none(mval), used)
    return Call([
        (6, lambda: not (is_row(room, row) and is_ballot(ballot) and is_node(room, node)
                         and (is_ballot(mbal) or mbal == NO_BALLOT)
                         and (is_tube(mval) or mval == NO_TUBE)
                         and pairs_in_limits(count, pairs))),
        (7, lambda: not all(on_intake(room, tube) for tube in
                            [paired for paired, _ in used] + ([] if mval == NO_TUBE else [mval]))),
        (15, lambda: no_room_for(room, post)),
    ], foreign_act(room, post, node))


def foreign_with_tube(room: Room, post, row, ballot, node, tube) -> Call:
    return Call([
        (6, lambda: not within_limits(room, row, ballot, node, tube)),
        (7, lambda: not on_intake(room, tube)),
        (15, lambda: no_room_for(room, post)),
    ], foreign_act(room, post, node))


def foreign_2av(room: Room, row, ballot, node, tube) -> Call:
    return foreign_with_tube(room, Post2av(row, ballot, node, tube), row, ballot, node, tube)


def foreign_2b(room: Room, row, ballot, node, tube) -> Call:
    return foreign_with_tube(room, Post2b(row, ballot, node, tube), row, ballot, node, tube)


def foreign(room: Room, kind, row, ballot, node, tube, mbal, mval, count, pairs) -> Call:
    if kind == KIND_1B:
        return foreign_1b(room, row, ballot, node, mbal, mval, count, pairs)
    if kind == KIND_2AV:
        return foreign_2av(room, row, ballot, node, tube)
    if kind == KIND_2B:
        return foreign_2b(room, row, ballot, node, tube)
    return Call([(6, lambda: True)], lambda: ())


def ask(room: Room, row: int) -> Call:
    return Call([
        (6, lambda: not is_row(room, row)),
        (18, lambda: len(chosen(room, row)) >= 2),
    ], lambda: tuple(chosen(room, row)) or (NO_TUBE,))
