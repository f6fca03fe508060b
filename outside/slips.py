"""Tries the comparison itself: this program with one slip at a time put in, each of which the sessions, sheets or frames must show."""

import glob
import os
import sys
import types

import frames
import generate
import sheet

HERE = os.path.dirname(os.path.abspath(__file__))

# (file, text, text with the slip); the text must stand exactly once in the file.
SLIPS = [
    # known safe
    ("room", "paired == tube and ballot > c", "paired == tube and ballot >= c"),
    ("room", "paired == tube and ballot > c", "ballot > c"),
    ("room", "if rank(post.mbal) < c or", "if rank(post.mbal) <= c or"),
    ("room", "if rank(post.mbal) < c or", "if (post.mbal is not None and post.mbal < c) or"),
    ("room", "(post.mbal == c and post.mval == tube)", "post.mbal == c"),
    ("room", "for hearer, number in room.heard if hearer == node]", "for hearer, number in room.heard]"),
    ("room", "posts = [room.board[number] for hearer, number in room.heard if hearer == node]", "posts = room.board"),
    ("room", "and (post.row, post.ballot) == (row, ballot)]", "and post.row == row]"),
    ("room", "and (post.row, post.ballot) == (row, ballot)]", "and post.ballot == ballot]"),
    ("room", "{post.node for post in posts if post.mbal is None}", "{post.node for post in posts if post.mval is None}"),
    ("room", "for c in range(ballot))", "for c in range(ballot + 1))"),
    ("room", "for c in range(ballot))", "for c in range(1, ballot))"),
    ("room", "for c in range(ballot))", "for c in range(ballot - 1))"),
    ("room", "full(room.quorums, at_most_c) and full(room.weak, above_c)", "full(room.quorums, at_most_c)"),
    ("room", "full(room.quorums, at_most_c) and full(room.weak, above_c)", "full(room.weak, above_c)"),
    ("room", "and full(room.weak, above_c)", "and full(room.quorums, above_c)"),
    ("room", "and full(room.weak, above_c)", "and full(room.weak, above_c & at_most_c)"),
    ("room", "return any(one <= nodes for one in sets)", "return any(one <= nodes for one in sets[:1])"),
    ("room", "return any(one <= nodes for one in sets)", "return any(one <= nodes for one in sets[:-1] or sets)"),
    # relays, votes and the book
    ("room", "if Post2av(row, ballot, node, tube) in room.standing})",
     "if any(Post2av(row, ballot, node, other) in room.standing for other in range(65))})"),
    ("room", "votes.setdefault((post.tube, post.ballot), set())", "votes.setdefault((post.tube, 0), set())"),
    ("room", "isinstance(post, Post2b) and post.row == row", "isinstance(post, Post2b)"),
    ("room", "isinstance(post, Post2b) and post.row == row", "isinstance(post, Post2av) and post.row == row"),
    ("room", "BookRow(row, tube, tube in entered)", "BookRow(row, tube, False)"),
    ("room", "            break\n", "            continue\n"),
    ("room", "why = SPLIT if tubes else UNCHOSEN", "why = UNCHOSEN"),
    ("room", "(18, lambda: len(chosen(room, row)) >= 2)", "(18, lambda: len(chosen(room, row)) >= 3)"),
    # the tests of the steps
    ("room", "return post not in room.standing and len(room.board) >= room.capacity", "return len(room.board) >= room.capacity"),
    ("room", "len(room.board) >= room.capacity", "len(room.board) > room.capacity"),
    ("room", "(8, lambda: ballot <= rank(room.cells[place].max_bal))", "(8, lambda: ballot < rank(room.cells[place].max_bal))"),
    ("room", "return -1 if ballot is None else ballot", "return 255 if ballot is None else ballot"),
    ("room", "(9, lambda: Post1a(row, ballot) not in room.standing)",
     "(9, lambda: not any(Post1a(other, ballot) in room.standing for other in range(65)))"),
    ("room", "(9, lambda: Post1c(row, ballot, tube) not in room.standing)",
     "(9, lambda: not any(Post1c(row, ballot, other) in room.standing for other in range(65)))"),
    ("room", "any(sent >= ballot for _, sent in room.cells[place].pairs)", "any(sent > ballot for _, sent in room.cells[place].pairs)"),
    ("room", "any(sent >= ballot for _, sent in room.cells[place].pairs)",
     "any(sent >= ballot and paired == tube for paired, sent in room.cells[place].pairs)"),
    ("room", "(14, lambda: len(others()) >= MOST_PAIRS)", "(14, lambda: len(room.cells[place].pairs) >= MOST_PAIRS)"),
    ("room", "(14, lambda: len(others()) >= MOST_PAIRS)", "(14, lambda: len(others()) >= MOST_PAIRS - 1)"),
    ("room", "max_bal=ballot, pairs=others() + ((tube, ballot),)", "pairs=others() + ((tube, ballot),)"),
    ("room", "pairs=others() + ((tube, ballot),)", "pairs=(room.cells[place].pairs + ((tube, ballot),))[-16:]"),
    ("room", "max_bal=ballot, max_vbal=ballot, max_vval=tube", "max_vbal=ballot, max_vval=tube"),
    ("room", "max_bal=ballot, max_vbal=ballot, max_vval=tube", "max_bal=ballot, max_vbal=ballot"),
    ("room", "max_bal=ballot, max_vbal=ballot, max_vval=tube", "max_bal=ballot, max_vval=tube"),
    ("room", "room.cells[place] = replace(room.cells[place], max_bal=ballot)\n", "pass\n"),
    ("room", "        room.marks.add(node)\n", ""),
    ("room", "if post not in self.standing:", "if len(self.board) < self.capacity:"),
    ("room", "(16, lambda: pair not in room.intake and len(room.intake) >= HIGHEST_TUBE)", "(16, lambda: len(room.intake) >= HIGHEST_TUBE)"),
    ("room", "(6, lambda: not 0 <= station <= HIGHEST_STATION)", "(6, lambda: pair not in room.intake and station > 65535)"),
    ("room", "0 <= number < len(room.board)", "0 <= number < room.capacity"),
    ("room", "(13, lambda: not isinstance(room.board[number], Post1b))", "(13, lambda: False)"),
    ("room", "return 1 <= row <= room.rows", "return 1 <= row <= 64"),
    ("room", "return 1 <= row <= room.rows", "return 0 <= row <= room.rows"),
    ("room", "return 0 <= node < room.nodes", "return 0 <= node <= room.nodes"),
    ("room", "return 0 <= ballot <= HIGHEST_BALLOT", "return 0 <= ballot <= 16"),
    ("room", "return 1 <= tube <= HIGHEST_TUBE", "return 0 <= tube <= HIGHEST_TUBE"),
    ("room", "return 1 <= tube <= HIGHEST_TUBE", "return 1 <= tube"),
    ("room", "return 1 <= tube <= len(room.intake)", "return 1 <= tube"),
    ("room", "all(earlier < later for earlier, later in zip(keys, keys[1:]))", "all(earlier <= later for earlier, later in zip(keys, keys[1:]))"),
    ("room", "keys = [(ballot, tube) for tube, ballot in pairs]", "keys = [(tube, ballot) for tube, ballot in pairs]"),
    ("room", "if count > MOST_PAIRS:", "if count > 17:"),
    ("room", "and all(pair == (0, 0) for pair in unused)", ""),
    ("room", "(is_ballot(mbal) or mbal == NO_BALLOT)", "is_ballot(mbal)"),
    ("room", "(is_ballot(mbal) or mbal == NO_BALLOT)", "(is_ballot(mbal) or mbal == NO_BALLOT) and (mbal == 255) == (mval == 0)"),
    ("room", "(is_ballot(mbal) or mbal == NO_BALLOT)", "(mbal < ballot or mbal == NO_BALLOT)"),
    ("room", "+ ([] if mval == NO_TUBE else [mval])", ""),
    ("room", "[paired for paired, _ in used] + ", ""),
    # opening
    ("room", "any(len(one & other) <= faulty for one in quorums for other in quorums)",
     "any(len(one & other) < faulty for one in quorums for other in quorums)"),
    ("room", "any(len(one & other) <= faulty for one in quorums for other in quorums)",
     "any(len(one & other) <= faulty for one in quorums for other in quorums if one is not other)"),
    ("room", "any(len(one) <= faulty for one in weak)", "any(len(one) < faulty for one in weak)"),
    ("room", "for one in [*quorums, *weak] for node in one", "for one in quorums for node in one"),
    ("room", "1 <= quorums <= MOST_SETS and 1 <= weak <= MOST_SETS", "1 <= quorums <= 65 and 1 <= weak <= MOST_SETS"),
    ("room", "0 <= faulty <= MOST_FAULTY", "0 <= faulty < nodes"),
    # frames
    ("frames", "demand(message_image(post) == image)", "demand(True)"),
    ("frames", "demand(len(set(intake)) == len(intake))", "demand(True)"),
    ("frames", "demand(marks <= set(range(house.nodes)))", "marks &= set(range(house.nodes))"),
    ("frames", "demand(len(set(board)) == len(board))", "demand(True)"),
    ("frames", "demand({number for _, number in heard} <= numbers_of_1b)",
     "demand({number for _, number in heard if number < len(board)} <= numbers_of_1b)"),
    ("frames", "demand({number for _, number in heard} <= numbers_of_1b)",
     "demand({number for _, number in heard if number < house.capacity} <= numbers_of_1b)"),
    ("frames", "demand(rules.pairs_in_limits(count, places))", "demand(count <= 16)"),
    ("frames", "demand(all(tube <= scanned for tube, _ in used))", "demand(True)"),
    ("frames", "demand(byte <= scanned)", "demand(byte <= 64)"),
    ("frames", "demand(1 <= tube <= scanned)", "demand(1 <= tube <= 64)"),
    ("frames", "demand(1 <= row <= rows and rules.is_ballot(ballot) and node < nodes)",
     "demand(1 <= row <= 64 and rules.is_ballot(ballot) and node < nodes)"),
    ("frames", "        demand(not applies())\n", "        pass\n"),
    ("frames", "and self.messages <= self.capacity and self.scanned <= rules.HIGHEST_TUBE", "and self.messages <= self.capacity and self.scanned <= 65"),
    ("frames", "rules.counts_in_limits(self.nodes, self.faulty, self.rows, self.capacity,",
     "rules.counts_in_limits(self.nodes, min(7, self.faulty), self.rows, self.capacity,"),
    ("frames", "len(memory.board) >= MESSAGE_SIZE * capacity", "len(memory.board) >= MESSAGE_SIZE * capacity - 1"),
    ("frames", "len(memory.cells) >= CELL_SIZE * nodes * rows", "len(memory.cells) >= CELL_SIZE * nodes * rows - 1"),
    ("frames", "len(memory.heard) >= HEARD_SIZE * nodes", "len(memory.heard) >= HEARD_SIZE * nodes - 1"),
    ("frames", "LEAST_WAITING = 64", "LEAST_WAITING = 63"),
    ("frames", "over(memory.book, rows)", "over(bytes(len(memory.book)), rows)"),
    ("frames", "over(memory.waiting, waiting)", "over(bytes(len(memory.waiting)), waiting)"),
    ("frames", "0 if line.void else line.tube for line in book.rows", "line.tube for line in book.rows"),
    ("frames", "blank = Memory(bytes(HOUSE.size), frame.memory.board", "blank = Memory(bytes(HOUSE.size), bytes(len(frame.memory.board))"),
    ("frames", "blank = Memory(bytes(HOUSE.size), ", "blank = Memory(frame.memory.house, "),
    ("frames", "over(before.intake, b\"\".join(SCAN.pack(*scan) for scan in room.intake))",
     "over(bytes(320), b\"\".join(SCAN.pack(*scan) for scan in room.intake))"),
    ("frames", "over(before.quorum_table, bytes(", "over(bytes(64), bytes("),
    # the sheet
    ("sheet", "LONGEST_LINE = 200", "LONGEST_LINE = 199"),
    ("sheet", "LONGEST_LINE = 200", "LONGEST_LINE = 201"),
    ("sheet", "HIGHEST_NUMBER = 4294967295", "HIGHEST_NUMBER = 4294967294"),
    ("sheet", "HIGHEST_NUMBER = 4294967295", "HIGHEST_NUMBER = 4294967296"),
    ("sheet", "NUMBER = rb\"(0|[1-9][0-9]*)\"", "NUMBER = rb\"([0-9]+)\""),
    ("sheet", "return pieces[:-1] if pieces[-1] == b\"\" else pieces", "return pieces"),
    ("sheet", "return pieces[:-1] if pieces[-1] == b\"\" else pieces", "return [piece for piece in pieces if piece]"),
    ("sheet", "pieces = sheet.split(b\"\\n\")", "pieces = sheet.replace(b\"\\r\\n\", b\"\\n\").split(b\"\\n\")"),
    ("sheet", "len(book.rows) - void, void", "len(book.rows), void"),
    ("sheet", "b\"row=%d void=%d\\n\" % (line.row, line.tube)", "b\"row=%d void=%d\\n\" % (line.row, 1)"),
    ("sheet", "b\"split=%d\\n\" % (len(book.rows) + 1)", "b\"split=%d\\n\" % len(book.rows)"),
    ("sheet", "if book.why == rules.SPLIT:", "if book.why != rules.ROWS_ENDED:"),
]


def swapped_tests():
    """Each neighbouring pair of test lines of the rules, the one put in the place of the other."""
    with open(os.path.join(HERE, "room.py")) as source:
        lines = source.read().split("\n")
    for one, two in zip(lines, lines[1:]):
        if one.startswith("        (") and two.startswith("        (") and ", lambda:" in one and ", lambda:" in two:
            if one.endswith("),") and two.endswith("),"):
                first, second = one.split(",")[0].strip(" ("), two.split(",")[0].strip(" (")
                # a field outside its limits leaves no cell to look at, and an absent row has no tube chosen
                if (first, second) not in (("6", "8"), ("6", "18")):
                    yield "room", one + "\n" + two, two + "\n" + one


def loaded(changes) -> dict:
    """The three modules with changes to their texts, beside and not instead of the true ones."""
    true = {name: sys.modules.get(name) for name in ("room", "sheet", "frames")}
    made = {}
    try:
        for name in ("room", "sheet", "frames"):
            with open(os.path.join(HERE, name + ".py")) as source:
                text = source.read()
            for old, new in changes.get(name, ()):
                text = text.replace(old, new, 1)
            module = types.ModuleType(name)
            module.__package__ = ""
            sys.modules[name] = module
            exec(compile(text, name, "exec"), module.__dict__)
            made[name] = module
    finally:
        sys.modules.update(true)
    return made


def inputs():
    stored = []
    for path in sorted(glob.glob(os.path.join(HERE, "sessions", "*.sheet"))):
        with open(path, "rb") as one, open(path[:-len("sheet")] + "expected", "rb") as other:
            stored.append((one.read(), other.read()))
    made = [(given, sheet.run_sheet(given)) for given in generate.sheets()]
    framed = [(image, frames.answer(image)) for image in map(frames.frame_image, generate.all_frames())]
    return {"sessions": stored, "sheets": made, "frames": framed}


def differs(call, given, expected) -> bool:
    try:
        return call(given) != expected
    except Exception:
        return True


def shown_by(modules, given) -> str:
    """The first of the three kinds of input that shows the slip, or nothing."""
    calls = {"sessions": modules["sheet"].run_sheet, "frames": modules["frames"].answer, "sheets": modules["sheet"].run_sheet}
    for name, call in calls.items():
        if any(differs(call, one, two) for one, two in given[name]):
            return name
    return ""


def main() -> int:
    given = inputs()
    passed = failed = 0
    for name, old, new in [*SLIPS, *swapped_tests()]:
        with open(os.path.join(HERE, name + ".py")) as source:
            if source.read().count(old) < 1:
                print(f"no such text in {name}: {old!r}")
                failed += 1
                continue
        where = shown_by(loaded({name: [(old, new)]}), given)
        if where:
            passed += 1
        else:
            failed += 1
        print(f"{where or 'NOT SHOWN'}: {name}: {new.strip()[:110]!r}", flush=True)
    print(f"{passed} passed, {failed} failed")
    return 1 if failed else 0


if __name__ == "__main__":
    raise SystemExit(main())
