"""The console: its stored run, and a talk with the built program as a screen has it.

    python3 tests/console.py --write | --check
    python3 tests/console.py --program PATH [--seed N]

--write makes the stored run of crates/console anew with the second implementation, --check
fails if it differs. --program talks to the program, each answer awaited before the next
command is sent, has it mark the journals of examples/ and the longest ones and answer the commands
there, and then hands it files of many commands. The longest journals and these it must answer quickly.
"""

import argparse
import select
import subprocess
import sys
import tempfile
import time
from pathlib import Path

HERE = Path(__file__).resolve().parent
ROOT = HERE.parent
CRATE = ROOT / "crates" / "console"
sys.path.insert(0, str(HERE / "second"))

import examples
import makers
from cases import CASES
from chance import Chance
from console import LONGEST_LINE, BuiltConsole, Console, answers_to, cells_bytes, console_output, lines_in
from journal import FIELDS, RECORD, journal_bytes, journal_of, verdict_line
from makers import raw_file, raw_record
from plan_file import Plan, encode
from program import line_of
from rounding import LARGEST_CELL
from run import Run
from scripts import ANSWERS, Script, kind_of

# A console that does not answer fails, and so does one with fewer commands a second,
# or one that takes more seconds to mark the longest journal.
LONGEST_ANSWER = 20
PACE = 200_000
LONGEST_MARKING = 1
# How often a run of 131,073 choices is timed in a row, and how many scripts are talked through.
TIMES = 10
TALKS = 60


# The stored run.

def plans():
    """Plan files by name: some plans, the longest file and one byte more, and one for each refusal."""
    files = {
        "figure.plan": encode(CASES["b"].plan(pipes=[True] * 3, lines=3)),
        "two words.plan": encode(CASES["h"].plan(pipes=[True, False], lines=2)),
        "none.plan": encode(CASES["c"].plan()),
        "longest.plan": encode(makers.longest_plan()),
        "refused-1.plan": encode(makers.longest_plan()) + b"\0",
        "refused-3.plan": raw_file(edition=2),
        "refused-4.plan": raw_file(pipes=b"SX"),
        "refused-5.plan": raw_file(raw_record(1, [3, 2]), r=1),
        "refused-6.plan": raw_file(raw_record(1, [1]), r=1),
        "refused-7.plan": encode(makers.plan_with_total(8193)),
        "empty.plan": b"",
    }
    files["refused-2.plan"] = files["figure.plan"][1:]
    return files


def marked_run():
    """The records of the stored journals: case h by two workers, as in the README, to its end."""
    plan = CASES["h"].plan(pipes=[True, False], lines=2)
    lines = [0, 0, 1, 0, 1, 0, 1, 0, 1, 0, 1, 0, 0]
    records, run = journal_of(plan, 2, makers.by_practice(plan, 2, lines))
    assert run.ended and len(records) == len(lines)
    return records


def journals():
    """Journals by name, each for `two words.plan` and W = 2: right ones, and some for each refusal."""
    records = marked_run()

    def with_one(at, **fields):
        """The journal with other fields in one record."""
        record = tuple(fields.get(name, number) for name, number in zip(FIELDS, records[at]))
        return [*records[:at], record, *records[at + 1:]]

    stop = next(at for at, record in enumerate(records) if record[0] == ord("X"))
    files = {
        "complete.journal": records,
        "so far.journal": records[:stop + 1],
        "wrong-10.journal": with_one(3, line=2),
        "wrong-11.journal": records + records[-1:],
        "wrong-12.journal": with_one(0, line=1),
        "wrong-13.journal": with_one(3, worker=0),
        "wrong-20-letter.journal": with_one(4, kind=ord("f")),
        "wrong-20-kind.journal": with_one(1, kind=ord("S")),
        "wrong-20-pipe.journal": with_one(2, pipe=1),
        "wrong-20-token.journal": with_one(0, token=0),
        "wrong-20-place.journal": with_one(3, place=256),
        "wrong-20-stop.journal": with_one(stop, place=3),
        "wrong-26-beyond.journal": with_one(0, worker=2),
        "wrong-26-finish.journal": with_one(1, worker=1),
    }
    files = {name: journal_bytes(written) for name, written in files.items()}
    files["part.journal"] = files["complete.journal"] + files["complete.journal"][:RECORD - 1]
    return files


def cells():
    """Cells by name: for the 17 tokens of `figure.plan`, and for the 3 of `two words.plan`, right ones and others."""
    files = {
        "figure.cells": [2] * 17,
        "three cells": [4, 9, 3],
        "most.cells": [LARGEST_CELL] * 3,
        "fewer.cells": [4, 9],
        "more.cells": [4, 9, 3, 0],
        "first-too-large.cells": [LARGEST_CELL + 1, 9, 3],
        "last-too-large.cells": [4, 9, LARGEST_CELL + 1],
        "high-byte.cells": [4, 9 + 2**24, 3],
    }
    files = {name: cells_bytes(numbers) for name, numbers in files.items()}
    files["part.cells"] = files["three cells"] + b"\xff\xff\xff"
    files["cut.cells"] = files["three cells"][:-1]
    return files


def stored_files():
    return {**plans(), **journals(), **cells()}


def on_zeros():
    """What is asked of a state of zeros."""
    return ["ended", "choose 0 0", "offer 0 0", "take X 0 0", "take S 0 0 0 0 0", "choose 65535 65535"]


def refused_lines():
    """Plans and openings that are refused, and what the state is then."""
    for number in range(1, 8):
        yield from (f"plan refused-{number}.plan", "open 1", "open 33", *on_zeros()[:4])
    yield from ("plan empty.plan", "plan missing.plan", "plan figure.plan ", "plan  figure.plan")
    yield "open 0"
    yield from ("plan figure.plan", "open 1", "choose 0 0", "open 0", *on_zeros(), "open 33")
    yield "open 65535"
    # A run goes on whatever plan is kept; the next opening goes by that.
    yield from ("open 1", "choose 0 0", "plan refused-5.plan", "choose 0 0", "open 1", "choose 0 0")


def figure_lines():
    """Offers and takings in a hall of two."""
    yield from ("plan figure.plan", *on_zeros(), "open 2", "ended", "offer 0 0", "offer 0 0")
    yield "offer 1 0"
    # Each field another, then what was offered.
    yield from ("take F 0 0 0 0 0", "take X 0 0", "take S 1 0 0 0 0", "take S 3 0 0 0 0")
    yield "take S 0 1 0 0 0"
    yield from ("take S 0 0 1 0 0", "take S 0 0 0 1 0", "take S 0 0 0 0 2")
    yield from ("take S 0 0 65535 65535 0", "take S 0 0 0 0 0")
    yield from ("offer 0 0", "offer 1 0", "offer 0 1", "take S 0 0 0 0 0", "take X 0 0")
    yield from ("take F 0 0 0 0 1", "take F 0 0 0 0 0")
    # An old offer, of the other worker, of a line that has gone on.
    yield from ("take F 0 0 0 0 0", "choose 0 0", "choose 1 1", "offer 0 1", "offer 1 1")
    yield from ("choose 0 2", "choose 1 2")
    yield from ("take F 0 1 0 0 0", "offer 1 0", "choose 1 0", "take S 0 2 0 0 1", "offer 0 0")
    yield from ("take S 0 2 0 0 0", "choose 1 1")
    yield from ("offer 0 2", "take S 2 0 2 2 0", "offer 1 2", "take S 2 0 2 2 1")
    yield "take F 0 2 0 0 0"
    # 10 before 26, 26 before all else.
    yield from ("choose 2 0", "choose 2 3", "choose 0 3", "choose 65535 0", "choose 0 65535")
    yield from ("offer 2 0", "offer 0 3")
    yield from ("take F 3 0 0 0 2", "take F 0 0 0 0 2", "take X 3 0", "take X 0 2", "ended")
    # One worker to the end, and past it.
    yield from ("open 0001", "ended")
    for _, line in makers.one_worker_list(CASES["b"].plan(pipes=[True] * 3, lines=3)):
        yield f"choose 0 {line}"
    yield from ("ended", "choose 0 0", "choose 0 3", "choose 1 0", "offer 0 0", "offer 0 3")
    yield from ("take X 2 0", "take S 0 0 0 0 1")


def small_lines():
    """A run by offers and takings to its end, stops, and the longest plan."""
    plan = CASES["h"].plan(pipes=[True, False], lines=2)
    yield from ("plan two words.plan", "open 1")
    run = Run(plan, 1)
    for choice in makers.one_worker_list(plan):
        yield from ("offer %d %d" % choice, "take " + line_of(run.choose(*choice)))
    yield "ended"
    # Offered to one worker, taken by another: it is what the line would do for that one.
    yield from ("open 2", "offer 0 0", "take S 0 0 2 0 1", "take F 0 0 2 0 0", "take F 0 0 2 0 1")
    yield from ("plan none.plan", "open 32", "offer 31 0", "take S 0 0 0 0 31", "take X 0 30")
    yield from ("take X 0 30", "ended")
    yield from ("open 32", "take X 1 7", "choose 7 0", "ended")
    yield from ("plan longest.plan", "open 1", "offer 0 0", "choose 0 0", "ended")


def mark_lines():
    """Every journal; a run that marks leave as it is; what is no mark."""
    yield from ("plan two words.plan", *(f"mark 2 {name}" for name in sorted(journals())))
    # In other halls, and over other plans.
    yield from ("mark 1 complete.journal", "mark 32 complete.journal", "mark 0002 complete.journal")
    yield from (f"mark {workers} complete.journal" for workers in (0, 33, 258, 65535))
    for number in range(1, 8):
        yield from (f"plan refused-{number}.plan", "mark 2 complete.journal", "mark 0 missing.journal")
    yield from ("plan none.plan", "mark 1 empty.plan", "mark 1 complete.journal")
    yield from ("plan figure.plan", "mark 2 complete.journal", "mark 2 two words.plan")
    # The open run goes on, whatever is marked, and a refused opening leaves it, too.
    yield from ("open 2", "choose 1 0", "plan two words.plan", "mark 2 complete.journal", "offer 1 0")
    yield from ("mark 2 wrong-26-finish.journal", "choose 1 0", "mark 0 complete.journal", "choose 1 0")
    yield from ("plan empty.plan", "mark 2 so far.journal", "ended", "choose 0 1", "plan two words.plan")
    # Missing ones are empty; a second space is the path's; some are no command.
    yield from ("mark 2 missing.journal", "mark 2  complete.journal", "mark 2 complete.journal ", "mark 2 .")
    yield from ("mark", "mark ", "mark 2", "mark 2 ", "mark  2 complete.journal", " mark 2 complete.journal")
    yield from ("mark x complete.journal", "mark complete.journal", "mark complete.journal 2", "Mark 2 a")
    yield from ("mark 65536 complete.journal", "mark 65538 complete.journal", "mark -2 complete.journal")
    yield from ("mark 2 " + "./" * 2039 + "/complete.journal", "mark 2 " + "./" * 2040 + "complete.journal")
    yield from ("mark 2 " + "a" * 4095, "mark 2 " + "a" * 4096)
    yield from ("mark " + "0" * 8168 + "2 complete.journal", "mark " + "0" * 8169 + "2 complete.journal")
    yield from ("offer 0 0", "choose 0 1")


def with_figures(lines):
    """Each command with the figures and the sum after it."""
    for line in lines:
        yield from (line, "figures", "sum")


def rounding_lines():
    """Runs with rounding in several orders, openings that are refused, and what is lent when."""
    yield from with_figures(["plan two words.plan", "open 1 0 5 three cells"])
    plan = CASES["h"].plan(pipes=[True, False], lines=2)
    # Step by step; then the other base by two workers, by offers and takings.
    yield from with_figures("choose %d %d" % choice for choice in makers.one_worker_list(plan))
    yield from ("ended", "choose 0 0", "open 2 0 3 three cells")
    run = Run(plan, 2)
    for choice in examples.all_lines_list(plan, 2):
        kind, line, *numbers, worker = run.choose(*choice)
        # Another event first, which is refused.
        other = ("F" if kind == "S" else "S", line, *(numbers or [0, 0, 0]), worker)
        yield from ("offer %d %d" % choice, "take " + line_of(other), "sum")
        yield "take " + line_of((kind, line, *numbers, worker))
    yield from ("ended", "figures", "sum")
    # The largest cells; bytes behind the last one; marks and plans in between.
    yield from ("open 1 0 5 most.cells", "choose 0 0", "choose 0 0", "figures", "mark 2 complete.journal")
    yield from ("plan figure.plan", "mark 2 complete.journal", "figures", "sum", "choose 0 0", "plan two words.plan")
    yield from ("open 1 0 3 part.cells", "choose 0 0", "choose 0 0", "figures", "sum")
    # None are lent without rounding, and after each refusal; the first that applies is said.
    yield from ("open 1", "figures", "sum", "choose 0 0", "choose 0 0", "figures", "sum", "choose 0 1")
    for refused in (
        "0 0 5 three cells", "33 2 4 missing.cells", "65535 0 5 three cells",
        "1 1 5 three cells", "1 2 4 missing.cells", "1 16 5 three cells", "1 256 5 three cells",
        "1 65535 5 three cells", "1 0 4 missing.cells", "1 0 0 three cells", "1 0 1 three cells",
        "1 0 259 three cells", "1 0 65535 three cells", "1 0 5 missing.cells", "1 0 5 fewer.cells",
        "1 0 5 more.cells", "1 0 5 first-too-large.cells", "1 0 3 last-too-large.cells", "1 0 5 high-byte.cells",
        "1 0 5 cut.cells", "1 0 5 figure.cells", "1 0 5  three cells", "1 0 5 three cells ", "1 0 5 .",
        "1 0 5 three", "1 0 5 empty.plan",
    ):
        yield from ("open 1 0 5 three cells", "choose 0 0", "choose 0 0", "sum")
        yield from (f"open {refused}", "figures", "sum", "ended", "choose 0 0", "offer 0 0", "take X 0 0")
    for number in range(1, 8):
        yield from (f"plan refused-{number}.plan", "open 33 16 4 missing.cells", "open 1 0 5 three cells", "figures")
    # No tokens, no cells.
    yield from ("plan none.plan", "open 1 0 5 missing.cells", "figures", "choose 0 0", "figures", "sum", "ended")
    yield from ("open 1 0 5 three cells", "figures")
    # Each pipe, in another order.
    plan = CASES["b"].plan(pipes=[True] * 3, lines=3)
    yield "plan figure.plan"
    for workers in (1, 2, 3):
        yield f"open {workers} {workers - 1} 5 figure.cells"
        yield from ("choose %d %d" % choice for choice in examples.all_lines_list(plan, workers))
        yield from ("ended", "figures", "sum")
    # Some that are just commands, and some that are none, which change nothing.
    yield from ("open 0001 00002 003 figure.cells", "figures")
    yield from ("open 1 2 3 " + "./" * 2041 + "/figure.cells", "open 1 2 3 " + "./" * 2042 + "figure.cells")
    yield from ("open 1 2 3 " + "a" * 4096, "open 1", "open 1 2", "open 1 2 3 figure.cells", "choose 0 0")
    yield from ("open 1 ", "open 1 2", "open 1 2 ", "open 1 2 3", "open 1 2 3 ", "open 1 figure.cells")
    yield from ("open 1 2 figure.cells", "open 1 2 figure.cells 3", "open  1 2 3 figure.cells")
    yield from ("open 1  2 3 figure.cells", "open 1 2  3 figure.cells", "open x 2 3 figure.cells")
    yield from ("open 1 x 3 figure.cells", "open 1 2 x figure.cells", "open 65537 2 3 figure.cells")
    yield from ("open 1 65538 3 figure.cells", "open 1 2 65539 figure.cells", "open 1 -2 3 figure.cells")
    yield from ("open " + "0" * 8168 + "1 2 3 figure.cells", "open " + "0" * 8169 + "1 2 3 figure.cells")
    yield from ("figures ", " figures", "figures 0", "Figures", "figure", "sum ", " sum", "sum 0", "Sum", "su", "sums")
    yield from ("figures", "sum", "choose 0 0", "open 1", "figures", "sum")


def other_lines():
    """Lines that are no command, and some that just are."""
    yield from ("plan figure.plan", "open 1", "choose 0 0")
    yield from ("", " ", "end", "Ended", "ended ", " ended", "ended 0", "quit ", " quit")
    yield from ("quit now", "draw 1")
    yield from ("plan", "plan ", "open", "open ", "open 1 ", "open  1", " open 1", "open 1 1")
    yield from ("open +1", "open -1", "open 1a")
    yield from ("open\t1", "open 65536", "open 00065536", "open 4294967297")
    yield "open 18446744073709551617"
    yield from ("choose", "choose ", "choose 0", "choose 0 ", "choose  0", "choose 0  0")
    yield from ("choose 0 0 ", "choose 0 0 0")
    yield from ("choose 65536 0", "choose 0 65536", "choose a 0", "choose 0 a", "Choose 0 0")
    yield "choose 0 " + "9" * 30
    yield from ("offer", "offer 0", "offer 0 ", "offer 0 0 0", "offer a 0", "offer 0 a")
    yield from ("offer 65536 0", "offer 00 00000")
    yield from ("take", "take ", "take S", "take X", "take S ", "take X 0", "take X 0 ")
    yield from ("take X 0 0 ", "take X 0 0 0")
    yield from ("take x 0 0", "take R 14", "take  X 0 0", "take S 0 0 0 0", "take S 0 0 0 0 ")
    yield "take S 0 0 0 0 0 0"
    yield from ("take F 0 0 0 0", "take F 0 0 0 0 65536", "take F 65536 0 0 0 0")
    yield from ("take SF 0 0 0 0 0", "take SX 0 0")
    # None of these has changed anything.
    yield from ("take F 0 0 0 0 0", "offer 0 0" + "0" * 8182, "choose 0 " + "0" * 8182)
    yield "choose 0 " + "0" * 8183
    yield from ("plan " + "a" * 4095, "plan " + "a" * 4096, "a" * 8191, "a" * 8192)
    yield from ("a" * 8191 + "ended", "a" * 65536 + "quit")
    # The last line lacks its newline, and nobody hears it.
    yield from ("ended", "quit", "ended")


def stored_input():
    """Every command, every kind of answer, and lines that are no command."""
    lines = [
        *on_zeros(), "mark 1 complete.journal", "open 1", *refused_lines(), *figure_lines(), *small_lines(),
        *mark_lines(), *rounding_lines(), *other_lines(),
    ]
    return "\n".join(lines).encode("ascii")


def made():
    """The files of the stored run by their paths."""
    stdin = stored_input()
    with tempfile.TemporaryDirectory() as folder:
        put_files(folder, stored_files())
        stdout = console_output(folder, stdin)
        missing = kinds_missing(folder, stdin)
    if missing:
        raise SystemExit("console: the stored run has no " + ", ".join(missing))
    data = {CRATE / "data" / name: content for name, content in stored_files().items()}
    return {CRATE / "stdin": stdin, CRATE / "stdout": stdout, **data}


def kinds_missing(folder, stdin):
    """The answers to a command that the stored run lacks."""
    lines = lines_in(stdin)
    come = set()
    for line, answer in zip(lines, answers_to(folder, lines)):
        come.add(line.decode("ascii").partition(" ")[0] + " " + kind_of(answer))
    wanted = [f"{word} {kind}" for word, kinds in ANSWERS.items() for kind in kinds]
    return [kind for kind in wanted if kind not in come]


def put_files(folder, files):
    for name, content in files.items():
        (Path(folder) / name).write_bytes(content)


def write():
    (CRATE / "data").mkdir(parents=True, exist_ok=True)
    for path, content in made().items():
        path.write_bytes(content)


def check():
    wanted = made()
    for path, content in wanted.items():
        if not path.exists() or path.read_bytes() != content:
            raise SystemExit(f"{path.relative_to(ROOT)} is not what the second implementation makes")
    there = {path for path in (CRATE / "data").iterdir()}
    if not there <= set(wanted):
        raise SystemExit(f"{min(there - set(wanted)).relative_to(ROOT)} is no file of the stored run")
    print("console: %d files are as the second implementation makes them" % len(wanted))


# Talking to the program.

class Talk:
    """The program at the other end of two pipes."""

    def __init__(self, program, folder):
        pipe = subprocess.PIPE
        self.process = subprocess.Popen([program], cwd=folder, stdin=pipe, stdout=pipe, bufsize=0)
        self.rest = b""

    def say(self, data):
        try:
            while data:
                data = data[self.process.stdin.write(data):]
        except BrokenPipeError:
            raise SystemExit("console: it ended before its input did") from None

    def hear(self):
        """The next line without its newline; None if none comes."""
        while b"\n" not in self.rest:
            ready, _, _ = select.select([self.process.stdout], [], [], LONGEST_ANSWER)
            more = self.process.stdout.read(65536) if ready else b""
            if not more:
                return None
            self.rest += more
        line, _, self.rest = self.rest.partition(b"\n")
        return line

    def end(self, close=True):
        """What comes after the last answer; the input is closed first, or left open."""
        if close:
            self.process.stdin.close()
        code = self.process.wait(LONGEST_ANSWER)
        left = self.rest + self.process.stdout.read()
        self.process.stdin.close()
        self.process.stdout.close()
        if code != 0:
            raise SystemExit(f"console: exit code {code}")
        return left


def talk(program, folder, lines, chance, close=True):
    """Each command is answered before the rest of the next one is sent; how many answers came.

    Its beginning may come with the command before.
    """
    second = BuiltConsole(folder)
    there = Talk(program, folder)
    begun = 0
    try:
        for many, line in enumerate(lines):
            following = lines[many + 1] if many + 1 < len(lines) else b""
            # A line that is too long is answered as soon as that is seen.
            early = chance.between(0, min(len(following), LONGEST_LINE)) if chance.one_in(4) else 0
            there.say(line[begun:] + b"\n" + following[:early])
            begun = early
            expected = second.answer(line)
            if second.over:
                break
            heard = there.hear()
            if heard != expected.encode("ascii"):
                raise SystemExit(f"console: {line[:80]!r} was answered by {heard!r}, not {expected!r}")
            if there.rest:
                raise SystemExit(f"console: {line[:80]!r} was answered by more than a line")
        left = b""
        if not second.over:
            # The last line lacks its newline.
            there.say(b"ended")
            left = second.answer(b"ended").encode("ascii") + b"\n"
        if there.end(close) != left:
            raise SystemExit("console: the end of the input is not answered as it should be")
    finally:
        there.process.kill()
    return many + 1


def talks(program, seed):
    """The stored run, and random scripts."""
    chance = Chance(seed)
    begun = time.monotonic()
    with tempfile.TemporaryDirectory() as folder:
        put_files(folder, stored_files())
        # `quit` ends it while its input is open.
        many = talk(program, folder, lines_in(stored_input()), chance, close=False)
    for _ in range(TALKS):
        with tempfile.TemporaryDirectory() as folder:
            lines = Script(chance, folder, one_by_one=True, made=BuiltConsole).make().lines
            many += talk(program, folder, lines, chance)
    took = time.monotonic() - begun
    print(f"console: {many} answers, each before the next command was sent, in {took:.1f} s")


# Journals.

def ask(there, line, expected):
    """How long one command took to be answered as it should be."""
    begun = time.monotonic()
    there.say(line.encode("ascii") + b"\n")
    heard = there.hear()
    took = time.monotonic() - begun
    if heard != expected.encode("ascii"):
        raise SystemExit(f"console: {line!r} was answered by {heard!r}, not {expected!r}")
    return took


def example_marks(program):
    """The journals of examples/, as its README has them marked."""
    there = Talk(program, ROOT)
    try:
        for name, plan, workers, _, verdict in examples.journals():
            header = Console(ROOT).answer(b"plan examples/%s.plan" % plan.encode("ascii"))
            ask(there, f"plan examples/{plan}.plan", header)
            ask(there, f"mark {workers} examples/{name}.journal", verdict_line(verdict))
        there.end()
    finally:
        there.process.kill()


def example_commands(program):
    """The files of commands of examples/, as its README has them answered."""
    for name, _ in examples.commands():
        with open(ROOT / "examples" / f"{name}.commands", "rb") as stdin:
            done = subprocess.run(
                [program], cwd=ROOT, stdin=stdin, stdout=subprocess.PIPE, timeout=LONGEST_ANSWER, check=True
            )
        if done.stdout != (ROOT / "examples" / f"{name}.answers").read_bytes():
            raise SystemExit(f"console: examples/{name}.commands is answered otherwise")


def long_journals(records):
    """The longest journal, and more or less than that: by name, with the verdict on each."""
    whole = journal_bytes(records)
    return {
        "whole": (whole, "complete"),
        "part": (whole + whole[:RECORD - 1], "complete"),
        "more": (whole + whole[:RECORD], "wrong 131073 11"),
        "longer": (whole * 4, "wrong 131073 11"),
        "less": (whole[:-RECORD], "correct so far"),
    }


def long_marks(program):
    """Each long journal is marked in time, in the middle of a run, which goes on."""
    plan = Plan(makers.big_pipes(), 32, 4096)
    choices = makers.one_worker_list(plan)
    journals = long_journals(journal_of(plan, 1, choices)[0])
    run = Run(plan, 1)
    longest = 0
    with tempfile.TemporaryDirectory() as folder:
        put_files(folder, {"full.plan": encode(plan), **{name: data for name, (data, _) in journals.items()}})
        there = Talk(program, folder)
        try:
            ask(there, "plan full.plan", "P 16 32 4096 0 1")
            ask(there, "open 1", "A")
            for at, (name, (_, verdict)) in enumerate(journals.items()):
                for worker, line in choices[21 * at:21 * at + 21]:
                    ask(there, f"choose {worker} {line}", line_of(run.choose(worker, line)))
                longest = max(longest, ask(there, f"mark 1 {name}", verdict))
            ask(there, f"offer 0 {line}", line_of(run.offer(0, line)))
            there.end()
        finally:
            there.process.kill()
    print(f"console: {len(journals)} long journals, the slowest marked in {longest:.2f} s")
    if longest > LONGEST_MARKING:
        raise SystemExit(f"console: {LONGEST_MARKING} s at most are wanted")


# Many commands in one file.

def in_lines(lines):
    return "".join(line + "\n" for line in lines).encode("ascii")


def full_run(offers):
    """A plan with 131,073 choices and the one-worker order of it, as choices or as offers and takings.

    Given as the files and the input.
    """
    plan = Plan(makers.big_pipes(), 32, 4096)
    lines = ["plan full.plan", "open 1"]
    run = Run(plan, 1)
    for worker, line in makers.one_worker_list(plan):
        if not offers:
            lines.append(f"choose {worker} {line}")
            continue
        event = run.choose(worker, line)
        lines += [f"offer {worker} {line}", "take " + line_of(event)]
    return {"full.plan": encode(plan)}, in_lines([*lines, "ended"])


def full_rounding():
    """The same with the most and largest cells, on fewer pipes: T comes to its limit."""
    plan = Plan([True, True], 32, 4096)
    files = {"full.plan": encode(plan), "full.cells": cells_bytes([LARGEST_CELL] * plan.tokens)}
    choices = [f"choose {worker} {line}" for worker, line in makers.one_worker_list(plan)]
    return files, in_lines(["plan full.plan", "open 1 1 3 full.cells", *choices, "ended", "figures", "sum"])


def in_one_file(program, what, files, data, times):
    """Compares a long input, and its pace with what is wanted."""
    with tempfile.TemporaryDirectory() as folder:
        put_files(folder, {**files, "given": data * times})
        given, written = Path(folder) / "given", Path(folder) / "written"
        with given.open("rb") as stdin, written.open("wb") as stdout:
            begun = time.monotonic()
            subprocess.run(
                [program], cwd=folder, stdin=stdin, stdout=stdout, timeout=LONGEST_ANSWER * times, check=True
            )
            took = time.monotonic() - begun
        if written.read_bytes() != console_output(folder, data) * times:
            raise SystemExit(f"console: {what} in one file are not answered as by the second implementation")
    many = times * data.count(b"\n")
    print(f"console: {many} commands in one file, {what}, {many / took:.0f} a second")
    if many / took < PACE:
        raise SystemExit(f"console: {PACE} a second are wanted")


def run(program, seed):
    program = str(Path(program).resolve())
    talks(program, seed)
    example_marks(program)
    example_commands(program)
    long_marks(program)
    in_one_file(program, "choices", *full_run(False), TIMES)
    in_one_file(program, "offers and takings", *full_run(True), TIMES // 2)
    in_one_file(program, "choices with rounding", *full_rounding(), TIMES)


def main():
    parser = argparse.ArgumentParser(description=__doc__.split("\n")[0])
    parser.add_argument("--write", action="store_true")
    parser.add_argument("--check", action="store_true")
    parser.add_argument("--program")
    parser.add_argument("--seed", type=int, default=1)
    wanted = parser.parse_args()
    if wanted.write:
        write()
    elif wanted.check:
        check()
    elif wanted.program:
        run(wanted.program, wanted.seed)
    else:
        parser.error("--write, --check or --program")


if __name__ == "__main__":
    main()
