"""The benchmark: what each call costs on boards of four sizes, as ratios to one reading of the lent bytes in the same run."""

import os
import platform
import shutil
import struct
import subprocess
import sys
import tempfile
from itertools import combinations, product

ROOT = os.path.dirname(os.path.dirname(os.path.abspath(__file__)))
sys.path.insert(0, os.path.join(ROOT, "outside"))
import frames  # noqa: E402
import room as rules  # noqa: E402

SIZES = (128, 256, 512, 1024)
READ, CALL, COPY = 0, 1, 2
NODES, FAULTY, ROWS, CAPACITY = 8, 1, 64, 1024
TUBES = 63
REPEATS = 5
AIM, AIM_DOUBLING = 10, 2.3
BEGIN, END = "<!-- measured -->", "<!-- end of measured -->"
A_ROW = 17  # one 1a, five 1b, one 1c, five 2av, five 2b


# ---- the room and an ordinary run ---------------------------------------------------------

def sets_of(size):
    return tuple(sum(1 << node for node in chosen) for chosen in combinations(range(NODES), size))


FIVES, PAIRS = sets_of(5), sets_of(2)


def done(call):
    """What an accepted call gives."""
    reply = rules.settle(call)
    assert reply.number == 0, reply
    return reply.values


def opened():
    reply, room = rules.open_room(NODES, FAULTY, ROWS, CAPACITY, FIVES, PAIRS)
    assert reply.number == 0
    for serial in range(TUBES):
        done(rules.scan(room, serial % 16, 70000 + serial))
    return room


def five_of(row):
    """The stations that carry a row: another five from row to row."""
    return sorted((row + k) % NODES for k in range(5))


def row_steps(row, tube, ballot, first):
    """The steps of a row, as the sheet names them; its 1a stands at the number `first`."""
    five = five_of(row)
    yield "1a", (row, ballot)
    for node in five:
        yield "1b", (row, ballot, node)
    for node in five:
        for k in range(1, 6):
            yield "hear", (node, first + k)
    yield "1c", (row, ballot, tube)
    for node in five:
        yield "2av", (row, ballot, node, tube)
    for node in five:
        yield "2b", (row, ballot, node, tube)


BUILD = {"1a": rules.send_1a, "1b": rules.send_1b, "1c": rules.send_1c, "2av": rules.send_2av, "2b": rules.send_2b,
         "hear": rules.hear, "scan": rules.scan}
ADDS = ("1a", "1b", "1c", "2av", "2b", "foreign")
CALLS = ("open", "scan", "1a", "1b", "1c", "2av", "2b", "hear", "foreign", "ask", "book")
STANDING = {"1a": 0, "1b": 1, "hear": 6, "1c": 6, "2av": 7, "2b": 12}  # messages of its row that a step finds there


def room_before(name, messages):
    """The room that a measured call finds, of so many messages, and the call's arguments: whole rows, then 1a messages of
    later ballots to make up the number, then the measured row as far as the call's step."""
    room = opened()
    started = STANDING.get(name, 0)
    rows = (messages - started) // A_ROW
    for row in range(1, rows + 1):
        for step, arguments in row_steps(row, row, 0, len(room.board)):
            done(BUILD[step](room, *arguments))
    spare = messages - started - len(room.board)
    for k in range(spare):
        done(rules.send_1a(room, 1 + k % rows, 1 + k // rows))
    work = rows + 1
    for step, arguments in row_steps(work, work, 0, len(room.board)):
        if step == name:
            break
        if name in STANDING:
            done(BUILD[step](room, *arguments))
    assert len(room.board) == messages, (name, messages, len(room.board))
    return room, work, arguments


def blank():
    return frames.Memory(bytes(frames.HOUSE.size), bytes(40 * CAPACITY), bytes(36 * NODES * ROWS), bytes(128 * NODES),
                         bytes(64), bytes(64))


def frame_of(name, messages):
    """The frame of a call that is accepted; a call that adds a message is made with one message fewer, and brings the last."""
    before = messages - 1 if name in ADDS else messages
    room, work, arguments = room_before(name, before)
    memory = frames.memory_of(room, blank())
    number = frames.CALL_NAMES.index(name)
    if name == "open":
        arguments = (NODES, FAULTY, ROWS, CAPACITY)
    elif name == "scan":
        arguments = (200, 99)
    elif name == "foreign":
        arguments = (rules.KIND_2B, work, 0, 7, work, 0, 0, 0)
    elif name == "ask":
        arguments = (work - 1,)
    elif name == "book":
        arguments = ()
    frame = frames.Frame(number, arguments, (), FIVES, PAIRS, memory)
    reply, after = frames.settle_frame(frames.read_frame(frames.taker(frames.io.BytesIO(frames.frame_image(frame)))))
    assert reply.number == 0, (name, messages, reply)
    if name in ADDS:
        assert frames.HouseImage.read(after.house).messages == messages
    return frames.frame_image(frame)


# ---- two boards that no ordinary run makes ------------------------------------------------

def scan_frame(room):
    arguments = (200, 99)
    return frames.frame_image(frames.Frame(frames.SCAN_TUBE, arguments, (), FIVES, PAIRS, frames.memory_of(room, blank())))


def pairs_in_use(messages):
    """A scan where every message is a 1b of sixteen pairs, and every cell has sixteen."""
    room = opened()
    pairs = tuple((k + 1, k) for k in range(16))
    for k in range(messages):
        room.append(rules.Post1b(1 + k % ROWS, k // ROWS, 0, None, None, pairs))
    for place in room.cells:
        room.cells[place] = rules.Cell(None, None, None, pairs)
    return scan_frame(room)


# A message is looked for first (crates/differ) at the sum of its eight fields, each times such a power of 31, modulo 2,039.
WEIGHTS = [pow(31, place, 2039) for place in range(8)]


def made_to_collide(messages):
    """A scan where foreign 1b messages were chosen so that all are looked for in one place."""
    room = opened()
    for row, ballot, node, mbal in product(range(1, ROWS + 1), range(16), range(NODES), range(16)):
        others = sum(byte * weight for byte, weight in zip((2, row, ballot, node, 0, mbal), WEIGHTS))
        mval = (7 - others) * pow(WEIGHTS[6], -1, 2039) % 2039
        if 1 <= mval <= TUBES and len(room.board) < messages:
            room.append(rules.Post1b(row, ballot, node, mbal, mval, ()))
    assert len(room.board) == messages
    return scan_frame(room)


# ---- times --------------------------------------------------------------------------------

def processor_time(command, sent):
    """The seconds of processor time that a program takes on an input, and what it writes."""
    with tempfile.TemporaryFile() as source, tempfile.TemporaryFile() as written:
        source.write(sent)
        source.flush()
        source.seek(0)
        process = subprocess.Popen(command, stdin=source, stdout=written)
        _, status, usage = os.wait4(process.pid, 0)
        process.returncode = status
        assert status == 0, command
        written.seek(0)
        return usage.ru_utime + usage.ru_stime, written.read()


def median(numbers):
    return sorted(numbers)[len(numbers) // 2]


def turns(what, times, frame):
    seconds, out = processor_time(["tools/run", "bench"], struct.pack("<BI", what, times) + frame)
    assert what != CALL or out == b"0", out
    return seconds


def enough(what, frame):
    """How many turns take about an eighth of a second."""
    times = 200
    while True:
        seconds = turns(what, times, frame)
        if seconds > 0.05:
            return int(times * 0.125 / seconds) + 10
        times *= 4


def per_turn(what, times, frame):
    few = times // 10
    return (turns(what, times, frame) - turns(what, few, frame)) / (times - few)


def cost(frame):
    """One call as a multiple of one reading of the lent bytes, and that reading's seconds: medians."""
    times = {what: enough(what, frame) for what in (READ, CALL, COPY)}
    ratios, readings = [], []
    for _ in range(REPEATS):
        read, call, copy = (per_turn(what, times[what], frame) for what in (READ, CALL, COPY))
        ratios.append((call - copy) / read)
        readings.append(read)
    return median(ratios), median(readings)


def instructions(what, times, frame):
    """Counted by valgrind, so the same in every run."""
    with tempfile.TemporaryFile() as source:
        source.write(struct.pack("<BI", what, times) + frame)
        source.flush()
        source.seek(0)
        told = subprocess.run(["valgrind", "--tool=callgrind", "--callgrind-out-file=/dev/null", "crates/bench/out/bench"],
                              stdin=source, stdout=subprocess.PIPE, stderr=subprocess.PIPE, text=True).stderr
    return int(told.split("Collected :")[1].split()[0])


def counted(frame):
    read, call, copy = (instructions(what, 12, frame) - instructions(what, 2, frame) for what in (READ, CALL, COPY))
    return (call - copy) / read


def can_count():
    return shutil.which("valgrind") is not None


# ---- beside the outside program -----------------------------------------------------------

OURS_FRAMES, THEIR_FRAMES = ["tools/run", "probe"], [sys.executable, "outside/frames.py"]
OUR_SHEET, THEIR_SHEET = ["tools/run", "sheet"], [sys.executable, "outside/sheet.py"]


def per_frame(command, frame, many):
    few = max(1, many // 10)
    more, out = processor_time(command, frame * many)
    less, _ = processor_time(command, frame * few)
    return (more - less) / (many - few), out[:len(out) // many]


def beside(frame):
    """How many times as long the outside program takes for a frame: read, served and replied to."""
    ratios = []
    for _ in range(3):
        ours, our_reply = per_frame(OURS_FRAMES, frame, 300)
        theirs, their_reply = per_frame(THEIR_FRAMES, frame, 10)
        assert our_reply == their_reply
        ratios.append(theirs / ours)
    return median(ratios)


FIELDS = {"1a": ("row", "ballot"), "1b": ("row", "ballot", "node"), "1c": ("row", "ballot", "tube"),
          "2av": ("row", "ballot", "node", "tube"), "2b": ("row", "ballot", "node", "tube"), "hear": ("node", "message")}


def shift(rows):
    """A sheet: the room, a scan for each row, and the steps of each row."""
    lines = [f"nodes={NODES}", f"faulty={FAULTY}", f"rows={ROWS}", f"capacity={CAPACITY}"]
    lines += [f"quorum={one}" for one in FIVES] + [f"weak={one}" for one in PAIRS]
    steps = [f"do=scan station={row % 16} serial={70000 + row}" for row in range(1, rows + 1)]
    for row in range(1, rows + 1):
        for name, arguments in row_steps(row, row, 0, A_ROW * (row - 1)):
            steps.append(f"do={name} " + " ".join(f"{field}={n}" for field, n in zip(FIELDS[name], arguments)))
    return "".join(line + "\n" for line in lines + steps).encode(), len(steps)


def shift_times():
    sheet, steps = shift(60)
    nothing, _ = shift(0)
    ours, theirs = [], []
    for _ in range(REPEATS):
        (whole, out), (start, _) = processor_time(OUR_SHEET, sheet), processor_time(OUR_SHEET, nothing)
        ours.append(whole - start)
        (whole, their_out), (start, _) = processor_time(THEIR_SHEET, sheet), processor_time(THEIR_SHEET, nothing)
        theirs.append(whole - start)
        assert out == their_out and out.endswith(b"scanned=60 entered=60 void=0 waiting=0\n")
    return steps, median(ours), median(theirs)


# ---- what is told -------------------------------------------------------------------------

def doubling(ratios):
    """The most that a cost grows when the messages double; a cost below half a reading is too small to tell."""
    return max([later / earlier for earlier, later in zip(ratios, ratios[1:]) if later >= 0.5], default=1)


def yes(good):
    return "yes" if good else "no"


def line_of(name, ratios, count):
    cells = [name] + [f"{ratio:.2f}" for ratio in ratios] + [f"{doubling(ratios):.2f}"]
    cells += [count, yes(ratios[-1] <= AIM), yes(doubling(ratios) <= AIM_DOUBLING)]
    line = "| " + " | ".join(cells) + " |"
    print(line, flush=True)
    return line


def measured_calls(build_frame, names):
    lines, figures, readings = [], {}, []
    for name in names:
        both = [cost(build_frame(name, messages)) for messages in SIZES]
        figures[name] = [ratio for ratio, _ in both]
        readings += [reading for _, reading in both]
        count = f"{counted(build_frame(name, SIZES[-1])):.2f}" if can_count() else "not counted"
        lines.append(line_of(name, figures[name], count))
    return lines, figures, median(readings)


HEAD = ["| Call | 128 | 256 | 512 | 1,024 | most at a doubling | 1,024 in instructions | within 10 | within 2.3 |",
        "|---|---|---|---|---|---|---|---|---|"]
ODD = {"scan, pairs in use": pairs_in_use, "scan, made to collide": made_to_collide}


def machine():
    with open("/proc/cpuinfo") as told:
        names = [line.split(":")[1].strip() for line in told if line.startswith("model name")]
    return ", ".join([platform.machine()] + names[:1] + [f"{os.cpu_count()} processors"])


def report():
    print(*HEAD, sep="\n", flush=True)
    lines, figures, reading = measured_calls(frame_of, CALLS)
    odd, _, _ = measured_calls(lambda name, messages: ODD[name](messages), ODD)
    print("the outside program's time for a frame on a full board, as a multiple of ours")
    their_lines = ["| Call | outside / ours |", "|---|---|"]
    for name in CALLS:
        their_lines.append(f"| {name} | {beside(frame_of(name, SIZES[-1])):.0f} |")
        print(their_lines[-1], flush=True)
    steps, ours, theirs = shift_times()
    shift_line = (f"A shift of 60 rows, {steps:,} steps to a board of 1,020 messages: a step costs {ours / steps / reading:.2f} readings of the lent"
                  f" bytes on average. The outside program takes {theirs / ours:.2f} times as long as ours for the whole shift, starts left out.")
    print(shift_line)
    where = (f"Machine: {machine()}. One reading of the 60,416 lent bytes took {reading * 1e6:.1f} microseconds. "
             f"Each figure is the median of {REPEATS} interleaved runs, in processor time.")
    print(where)
    picture(figures)
    write_down("\n".join([where, ""] + HEAD + lines + odd + ["", shift_line, "", *their_lines]))


def write_down(text):
    """The figures into docs/PERFORMANCE.md, between its two marks."""
    path = "docs/PERFORMANCE.md"
    with open(path) as told:
        before, rest = told.read().split(BEGIN)
    after = rest.split(END)[1]
    with open(path, "w") as out:
        out.write(before + BEGIN + "\n" + text + "\n" + END + after)


# ---- the picture --------------------------------------------------------------------------

SHADES = ("#c6dbef", "#6baed6", "#2171b5", "#08306b")


def picture(figures):
    """Four bars a call, and the aim as a line."""
    width, height, left, bottom, top = 900, 420, 60, 60, 50
    most = max([AIM * 1.2] + [ratio * 1.1 for ratios in figures.values() for ratio in ratios])
    group = (width - left - 20) / len(figures)

    def y(ratio):
        return height - bottom - (height - bottom - top) * ratio / most

    parts = [f'<svg xmlns="http://www.w3.org/2000/svg" width="{width}" height="{height}" font-family="sans-serif" font-size="13">',
             f'<rect width="{width}" height="{height}" fill="white"/>',
             f'<text x="{left}" y="22" font-size="15">One call, as a multiple of one reading of the lent bytes</text>']
    step = 5 if most <= 40 else 10
    for ratio in range(0, int(most) + 1, step):
        parts.append(f'<line x1="{left}" y1="{y(ratio):.1f}" x2="{width - 20}" y2="{y(ratio):.1f}" stroke="#dddddd"/>')
        parts.append(f'<text x="{left - 8}" y="{y(ratio) + 4:.1f}" text-anchor="end">{ratio}</text>')
    for k, (name, ratios) in enumerate(figures.items()):
        start, bar = left + group * k + group * 0.12, group * 0.76 / len(SIZES)
        for j, ratio in enumerate(ratios):
            parts.append(f'<rect x="{start + bar * j:.1f}" y="{y(ratio):.1f}" width="{bar:.1f}" height="{y(0) - y(ratio):.1f}" fill="{SHADES[j]}"/>')
        parts.append(f'<text x="{left + group * (k + 0.5):.1f}" y="{height - bottom + 20}" text-anchor="middle">{name}</text>')
    parts.append(f'<line x1="{left}" y1="{y(AIM):.1f}" x2="{width - 20}" y2="{y(AIM):.1f}" stroke="#cb181d" stroke-width="2" stroke-dasharray="6 4"/>')
    parts.append(f'<text x="{left + 4}" y="{y(AIM) - 6:.1f}" fill="#cb181d">aim: at most {AIM}</text>')
    for j, messages in enumerate(SIZES):
        parts.append(f'<rect x="{left + 190 * j}" y="{height - 22}" width="14" height="12" fill="{SHADES[j]}"/>')
        parts.append(f'<text x="{left + 190 * j + 20}" y="{height - 11}">{messages:,} messages</text>')
    with open("docs/performance.svg", "w") as out:
        out.write("\n".join(parts + ["</svg>"]) + "\n")


def store_run():
    """The stored run of the program bench: row 65 asked three times, each refused with 6."""
    asked = frames.read_frame(frames.taker(frames.io.BytesIO(frame_of("ask", 128))))
    asked = frames.Frame(frames.ASK, (ROWS + 1,), (), FIVES, PAIRS, asked.memory)
    for name, text in (("stdin", struct.pack("<BI", CALL, 3) + frames.frame_image(asked)), ("stdout", b"18")):
        with open("crates/bench/" + name, "wb") as out:
            out.write(text)


if __name__ == "__main__":
    os.chdir(ROOT)
    if sys.argv[1:] == ["--store-run"]:
        store_run()
    else:
        report()
