"""Random input for the console: its plan files, journals and cells, its lines, and the pieces in which it comes.

The second implementation hears each line as it is made, so that the next can go by
its answer: takings of what was offered, say.
"""

import os
from collections import Counter

import cell_makers
import journal_makers
import makers
import plan_file
from console import LARGEST, LONGEST_LINE, LONGEST_PATH, Console, event_in, file_at
from journal import COMPLETE, LONGEST_JOURNAL, SO_FAR, WRONG, journal_bytes, record_of, records_in
from makers import raw_file, raw_record
from plan_file import LONGEST_FILE, Refused, encode
from rounding import BASES
from run import FINISHED, REFUSED, STARTED, STOPPED

# Names that a path must be read to the byte for; the last one is as long as can be.
NAMES = [
    b"a.plan", b"two words.plan", b" a space first", b"a space last ", b"bl\xc3\xa5", b"\xff\xfe",
    b"0", b"quit", b"n" * 255,
]
# The same of journals and cells, of which each has a number of its own.
JOURNAL_NAMES = [b"j%d", b"a journal %d", b" %d first", b"%d last ", b"%d 2", b"\xff%d"]
CELLS_NAMES = [b"c%d", b"some cells %d", b" %d cells", b"%d cells ", b"%d 0 3 c", b"3 %d c", b"\xfe%d"]
NOT_THERE = [
    b"missing", b"a.pla", b"A.plan", b"a.plan\0", b"\0", b"n" * 256, b".", b"/", b"no/a.plan",
    b"/dev/null",
]

BLOCK = 65536
LENGTHS = (8190, 8191, 8191, 8192, 8193, 70000, 140000)

OTHER_WORDS = [
    b"end", b"Ended", b"endedd", b"QUIT", b"qui", b"chose 0 0", b"choose", b"offer", b"take", b"open", b"plan",
    b"?", b"R 14", b"E", b"X 0 0", b"S 0 0 0 0 0", b"draw 1", b"due 0", b"chain 0",
    b"figure", b"Figures", b"figuress", b"figures 0", b"su", b"Sum", b"sums", b"sum 0", b"C 0", b"T 0",
    b"open 1 0", b"open 1 0 3", b"open 1 0 3 ", b"open 1 0  3 a.plan", b"open 1 a.plan", b"open 1 0 a.plan",
    b"mark", b"mark 1", b"mark 1 ", b"mark  1 a.plan", b"Mark 1 a.plan", b"marks 1 a.plan", b"mark a.plan",
    b"mark a.plan 1", b"write S 1 1 a b", b"up a b", b"down a b",
]
NO_NUMBERS = [
    b"", b"+1", b"-1", b"-0", b"a", b"1a", b"0x1", b"1.0", b"1\0", b"\0", b"\xd9\xa1", b"\xb2",
    # What a number that wraps would take for 0 or 1.
    b"65536", b"65537", b"0065536", b"131072", b"4294967296", b"18446744073709551617",
    b"99999", b"100000", b"9" * 40, b"1" + b"0" * 300,
]

# What a line was made to try, beside its command and answer.
FIELDS = ("line", "pipe", "token", "place", "worker")
OLD = "an old offer"
PADDED = "a number with leading zeros"
KEPT = "a plan in the middle of a run"
MARKED = "a mark in the middle of a run"
OWN_JOURNAL = "the open run's"
PARALLEL_PIPE = "rounding at a parallel pipe"
NO_PIPE = "rounding at a pipe that is not there"
ROUNDING_ENDED = "the figures of an ended run with rounding"
IN_BETWEEN = "the figures of a run with rounding that goes on"
NONE_LENT = "figures where none are lent"
SOME_SUM = "a sum above 0"
BEYOND_W = "a journal with a worker of W or more"
BY_ANOTHER = "a journal with a finish by another worker"
NUL_BYTE = "a path with a NUL byte"
MISSING = "another path to no file"
AT_THE_LIMIT = f"a path of {LONGEST_PATH} bytes that is there"
TOO_LONG = f"a path above {LONGEST_PATH} bytes"
BLOCK_END = "a block's end in or at a command"
LONG_OVER_BLOCK = "a long line that goes on as a command after a block's end"
QUIT = "quit in the middle"
OPEN_END = "a last line without its newline"
AS_FILE = "an input as a file"
IN_BLOCKS = "an input in pieces of a block"
IN_PIECES = "an input in other pieces"

ANSWERS = {
    "plan": ("P", *range(1, 8)),
    "open": ("A", *range(1, 9), 16, 17, 18),
    "choose": ("S", "F", "X", 10, 11, 12, 13, 14, 26),
    "offer": ("S", "F", "X", 10, 11, 12, 13, 14, 26),
    "take": ("S", "F", "X", 10, 11, 12, 13, 14, 19, 26),
    "ended": ("E", "O"),
    "figures": ("C",),
    "sum": ("T",),
    "mark": (COMPLETE, SO_FAR, *(f"{WRONG} {number}" for number in (10, 11, 12, 13, 20, 26)), *range(1, 9)),
}
# What a long run of scripts must have tried.
KINDS = (
    *(f"{word} {kind}" for word, kinds in ANSWERS.items() for kind in kinds),
    "?", "an empty line", f"a line above {LONGEST_LINE} bytes", f"a command of {LONGEST_LINE} bytes",
    *(f"{word} with {path}" for word in ("plan", "mark", "open")
      for path in (AT_THE_LIMIT, TOO_LONG, NUL_BYTE, MISSING)),
    *(f"a taking with another {field}" for field in FIELDS),
    *(f"{one} taken as {two}" for one in "SFX" for two in "SFX" if one != two),
    f"{OLD} accepted", f"{OLD} refused", f"{OLD} R 19",
    *(f"a journal: {done}" for done in (OWN_JOURNAL, *journal_makers.DAMAGES)),
    *(f"cells: {done}" for done in cell_makers.DAMAGES),
    *(f"a cell passed by {word}" for word in ("choose", "take")),
    PARALLEL_PIPE, NO_PIPE, ROUNDING_ENDED, IN_BETWEEN, NONE_LENT, SOME_SUM,
    PADDED, KEPT, MARKED, BEYOND_W, BY_ANOTHER, BLOCK_END, LONG_OVER_BLOCK, QUIT, OPEN_END,
    AS_FILE, IN_BLOCKS, IN_PIECES,
)


def kind_of(answer):
    """What is counted of an answer: an event's letter, a refusal's number, a verdict without its index."""
    words = answer.split(" ")
    if words[0] == REFUSED:
        return words[1]
    if words[0] == WRONG:
        return f"{WRONG} {words[2]}"
    return answer if answer in (COMPLETE, SO_FAR) else words[0]


def plan_files(chance):
    """Fresh plan files by name: valid ones, damaged ones, now and then one at or past a limit."""
    contents = [encode(makers.any_plan(chance)[0]) for _ in range(chance.between(1, 3))]
    for _ in range(chance.between(0, 2)):
        contents.append(makers.damaged(chance, encode(makers.random_plan(chance))))
    if chance.one_in(12):
        longest = encode(makers.longest_plan())
        contents.append(longest + bytes(chance.pick([0, 1, 1, 2, LONGEST_FILE, 70000])))
    if chance.one_in(6):
        contents.append(encode(makers.plan_with_total(chance.pick([8192, 8193, 8193, 8193]))))
    if chance.one_in(3):
        contents.append(chance.pick([
            b"", raw_file(edition=2), raw_file(lines=33), raw_file(tokens=4097), raw_file(pipes=b"S" * 17),
            raw_file(pipes=b"P"), raw_file(pipes=b"Ss"), raw_file(raw_record(1, [1]), r=1),
        ]))
    return dict(zip(chance.shuffled(NAMES), contents))


class Script:
    """The lines of one input with their answers; `figures` counts what they tried.

    Where they are said one by one, there are no blocks, and nothing after `quit`.
    """

    def __init__(self, chance, folder, one_by_one=False, made=Console):
        self.chance = chance
        self.one_by_one = one_by_one
        self.folder = os.fsencode(folder)
        self.files = plan_files(chance)
        for name, content in self.files.items():
            with open(os.path.join(self.folder, name), "wb") as file:
                file.write(content)
        self.console = made(folder)
        self.lines, self.answers, self.figures = [], [], Counter()
        # How many bytes the lines have, with their newlines.
        self.size = 0
        # Events that were offered, and where in the lines the run was opened.
        self.old = []
        self.opened_at = 0
        # Whether journals are marked, and the names of those that are there, each with its W.
        self.marking = chance.one_in(3)
        self.journals = {}
        # Whether runs are opened with rounding, and the names of the cells that are there.
        self.rounding = chance.one_in(2)
        self.cells = []
        # How often a choice is by any worker, and whether starts come before finishes.
        self.others = chance.between(2, 8)
        self.finish_late = chance.one_in(2)

    def say(self, line, *tried):
        """The answer to one more line."""
        if not self.one_by_one and self.chance.one_in(400):
            # A block ends in it, just before it or just after.
            size = len(line)
            self.fill_block(self.chance.pick([0, 1, size, size + 1, self.chance.between(0, size + 1)]))
            self.figures[BLOCK_END] += 1
        return self.say_at_once(line, *tried)

    def say_at_once(self, line, *tried):
        before = self.console.run
        answer = self.console.answer(line)
        self.lines.append(line)
        self.size += len(line) + 1
        self.answers.append(answer)
        self.figures.update(tried)
        self.figures["lines"] += 1
        if answer == "?":
            self.figures["?"] += 1
            self.figures["an empty line"] += not line
            self.figures[f"a line above {LONGEST_LINE} bytes"] += len(line) > LONGEST_LINE
            return answer
        word = line.split(b" ")[0].decode("ascii")
        self.figures[f"{word} {kind_of(answer)}"] += 1
        self.figures[f"a command of {LONGEST_LINE} bytes"] += len(line) == LONGEST_LINE
        if word in ("plan", "mark"):
            in_a_run = before is not None and not before.ended
            self.figures[KEPT if word == "plan" else MARKED] += in_a_run
        self.count_rounding(word, answer)
        return answer

    def count_rounding(self, word, answer):
        run = self.console.run
        if word == "figures":
            self.figures[NONE_LENT] += answer == "C"
            if run is not None and run.rounding.base:
                self.figures[ROUNDING_ENDED if run.ended else IN_BETWEEN] += 1
        elif word == "sum":
            self.figures[SOME_SUM] += answer != "T 0"
        elif word in ("choose", "take") and answer[0] == FINISHED:
            passed = run.passes(event_in(answer.encode("ascii").split(b" ")))
            self.figures[f"a cell passed by {word}"] += passed

    def fill_block(self, ahead):
        """Lines that put a block's end so many bytes into what comes next."""
        room = -(self.size + ahead) % BLOCK
        # Mostly one line, long or not; else many.
        most = self.chance.pick([BLOCK, BLOCK, BLOCK, 9000, 700, 6])
        while room:
            size = min(room, most)
            self.say_at_once(b"ended" if size == 6 else (b"q" + b"quit" * size)[:size - 1])
            room -= size
        assert (self.size + ahead) % BLOCK == 0

    # Commands.

    def spelled(self, number):
        if not self.chance.one_in(30):
            return b"%d" % number
        self.figures[PADDED] += 1
        return b"0" * self.chance.pick([1, 2, 4, 5, 16, 20, 100]) + b"%d" % number

    def numbered(self, word, *numbers):
        return b" ".join([word, *(self.spelled(number) for number in numbers)])

    def take_line(self, event):
        return self.numbered(b"take " + event[0].encode("ascii"), *event[1:])

    def some_choice(self):
        """A worker and a line, mostly such as may be chosen."""
        chance, run = self.chance, self.console.run
        if run is None or chance.one_in(30):
            any_numbers = [0, 0, 1, 2, 31, 32, 255, 256, LARGEST, chance.below(LARGEST)]
            return chance.pick(any_numbers), chance.pick(any_numbers)
        if chance.one_in(15):
            worker = chance.pick([run.workers, run.workers + 1, run.workers - 1, chance.below(256)])
            line = chance.pick([run.lines, run.lines - 1, 0, run.lines + 1])
            return worker, line
        lines = [line for line in range(run.lines) if run.refusal(0, line) != 12]
        if self.finish_late and chance.below(3):
            lines = [line for line in lines if not run.running[line]] or lines
        line = chance.below(run.lines) if chance.one_in(12) else chance.pick(lines)
        worker = run.practice_worker(line)
        if chance.one_in(self.others):
            busy = [by for by in run.worker_of if by is not None]
            worker = chance.pick(busy + [chance.below(run.workers)])
        return worker, line

    def some_event(self, worker, line):
        """An event of this worker and line, right or not."""
        chance = self.chance
        if chance.one_in(3):
            return STOPPED, line, worker
        pipe, token, place = (chance.pick([0, 0, 1, 2, chance.below(65536)]) for _ in range(3))
        return chance.pick([STARTED, FINISHED]), line, pipe, token, place, worker

    def command(self):
        """The words of a command with numbers."""
        chance = self.chance
        worker, line = self.some_choice()
        workers = b"%d" % chance.pick([1, 2, 32, 33])
        manner = chance.below(6)
        if manner == 0:
            return [b"open", workers]
        if manner == 5:
            numbers = (b"%d" % chance.pick([0, 0, 1, 2]), b"%d" % chance.pick([3, 5, 5, 4]))
            return [b"open", workers, *numbers, chance.pick(self.cells or sorted(self.files))]
        if manner == 1:
            return self.take_line(self.some_event(worker, line)).split(b" ")
        if manner == 2:
            return [b"mark", workers, chance.pick(sorted(self.journals or self.files))]
        return [chance.pick([b"choose", b"offer"]), b"%d" % worker, b"%d" % line]

    def path_to(self, word, name):
        """A path to this file, once in a while one at the limit, or one to another file or none."""
        chance = self.chance
        if chance.one_in(8):
            name = chance.pick([*NOT_THERE, *NAMES, name + b"\0", name + b"\0x", name + b" ", b" " + name])
            if name not in self.files and name not in self.journals and name not in self.cells:
                what = NUL_BYTE if b"\0" in name else MISSING
                self.figures[f"{word} with {what}"] += 1
            return name
        if chance.one_in(12):
            return os.path.join(self.folder, name)
        if not chance.one_in(8):
            return name
        size = chance.pick([4094, 4095, 4095, 4096, 4097])
        if size >= LONGEST_PATH:
            what = AT_THE_LIMIT if size == LONGEST_PATH else TOO_LONG
            self.figures[f"{word} with {what}"] += 1
        before = size - len(name)
        return b"./" * (before // 2) + b"/" * (before % 2) + name

    def plan(self):
        return self.say(b"plan " + self.path_to("plan", self.chance.pick(sorted(self.files))))

    def open(self):
        chance = self.chance
        limits = [1, 1, 2, 2, 3, 4, 31, 32, chance.between(1, 32)]
        if chance.one_in(8):
            limits = [0, 33, 34, 256, 257, LARGEST]
        self.old.clear()
        line = self.numbered(b"open", chance.pick(limits))
        if self.rounding and not chance.one_in(4):
            line = self.with_rounding(line)
        answer = self.say(line)
        self.opened_at = len(self.lines)
        return answer

    def kept_plan(self):
        """The plan that is kept, or None where it is refused."""
        try:
            return plan_file.read(self.console.file)
        except Refused:
            return None

    # Rounding.

    def with_rounding(self, line):
        """The opening with a pipe, a base and cells, mostly such as the kept plan needs."""
        chance, plan = self.chance, self.kept_plan()
        kinds = [True] if plan is None else plan.pipes
        serial = [pipe for pipe, kind in enumerate(kinds) if kind]
        parallel = [pipe for pipe, kind in enumerate(kinds) if not kind]
        pipe, base = chance.pick(serial), chance.pick(BASES)
        manner = chance.below(10)
        if manner == 0 and parallel:
            pipe = chance.pick(parallel)
            self.figures[PARALLEL_PIPE] += 1
        elif manner == 1:
            pipe = chance.pick([len(kinds), len(kinds), 16, pipe + 256, LARGEST])
            self.figures[NO_PIPE] += 1
        if chance.one_in(12):
            base = chance.pick([0, 1, 2, 4, 6, 15, base + 256, LARGEST])
        path = self.path_to("open", self.some_cells(chance.below(9) if plan is None else plan.tokens))
        return line + self.numbered(b"", pipe, base) + b" " + path

    def some_cells(self, tokens):
        """The name of a cells file: a new one, or an old one, be the plan another."""
        chance = self.chance
        if self.cells and chance.one_in(6):
            return chance.pick(self.cells)
        content, done = cell_makers.any_cells(chance, tokens)
        name = chance.pick(CELLS_NAMES) % len(self.cells)
        with open(os.path.join(self.folder, name), "wb") as file:
            file.write(content)
        self.cells.append(name)
        self.figures[f"cells: {done}"] += 1
        return name

    def end_rounding(self):
        """Now and then the run is followed to its end first, if that is near."""
        chance = self.chance
        if chance.one_in(2):
            for _ in range(400):
                run = self.console.run
                if run is None or run.ended:
                    break
                lines = [line for line in range(run.lines) if not run.refusal(run.practice_worker(line), line)]
                line = chance.pick(lines)
                self.say(self.numbered(b"choose", run.practice_worker(line), line))
        for line in chance.shuffled([b"figures", b"sum"]):
            self.say(line)

    # Takings.

    def offer(self, worker, line):
        """The event of an offer, or None."""
        answer = self.say(self.numbered(b"offer", worker, line))
        if answer[0] == REFUSED:
            return None
        event = event_in(answer.encode("ascii").split(b" "))
        self.old = self.old[-12:] + [event]
        return event

    def offer_then_take(self):
        event = self.offer(*self.some_choice())
        if event and not self.chance.one_in(4):
            self.say(self.take_line(event))

    def take_changed(self):
        """The taking of an offer with its kind or a number changed; of a refused one, of any event."""
        choice = self.some_choice()
        event = self.offer(*choice)
        if event is None:
            self.say(self.take_line(self.some_event(*choice)))
            return
        # Stops are few.
        if event[0] == STOPPED or self.chance.one_in(3):
            self.take_other_kind(event)
        if event[0] == STOPPED or self.chance.one_in(2):
            self.take_other_number(event)

    def take_other_number(self, event):
        chance = self.chance
        at = chance.between(1, len(event) - 1)
        field = FIELDS[at - 1] if at < len(event) - 1 else "worker"
        now = event[at]
        others = {now - 1, now + 1, now + 256, 0, LARGEST, chance.below(LARGEST)} - {now}
        other = chance.pick(sorted(number for number in others if 0 <= number <= LARGEST))
        self.say(self.take_line((*event[:at], other, *event[at + 1:])), f"a taking with another {field}")

    def take_other_kind(self, event):
        line, worker = event[1], event[-1]
        kind = self.chance.pick([kind for kind in "SFX" if kind != event[0]])
        if kind == STOPPED:
            other = (kind, line, worker)
        elif event[0] != STOPPED:
            other = (kind, *event[1:])
        else:
            tables = self.console.run.tables
            other = (kind, line, 0, *self.chance.pick([(0, 0), (tables.count, tables.placed)]), worker)
        self.say(self.take_line(other), f"{event[0]} taken as {kind}")

    def take_old(self):
        if self.old:
            answer = self.say(self.take_line(self.chance.pick(self.old)))
            self.figures[f"{OLD} {'refused' if answer[0] == REFUSED else 'accepted'}"] += 1
            self.figures[f"{OLD} R 19"] += answer == "R 19"

    # Journals.

    def own_journal(self):
        """What the open run has written so far."""
        since = zip(self.lines[self.opened_at:], self.answers[self.opened_at:])
        answers = [
            answer for line, answer in since
            if answer[0] in (STARTED, FINISHED, STOPPED) and not line.startswith(b"offer")
        ]
        events = [event_in(answer.encode("ascii").split(b" ")) for answer in answers]
        return journal_bytes(record_of(event) for event in events)

    def new_journal(self):
        """A journal over the kept plan, or any where that is refused; W, and what was done to it."""
        run = self.console.run
        if run is not None and self.chance.one_in(5):
            return self.own_journal(), run.workers, OWN_JOURNAL
        plan = self.kept_plan()
        if plan is None:
            return journal_makers.any_journal(self.chance)
        return journal_makers.any_journal(self.chance, plan, 300 if plan.tokens <= 60 else 100)

    def some_journal(self):
        """The name of a journal and its W: a new one, or an old one, be the plan another."""
        chance = self.chance
        if not self.journals or not chance.one_in(5):
            content, workers, done = self.new_journal()
            name = chance.pick(JOURNAL_NAMES) % len(self.journals)
            with open(os.path.join(self.folder, name), "wb") as file:
                file.write(content)
            self.journals[name] = workers
            self.figures[f"a journal: {done}"] += 1
            return name, workers
        name = chance.pick(sorted(self.journals))
        return name, self.journals[name]

    def mark(self):
        chance = self.chance
        name, workers = self.some_journal()
        if chance.one_in(10):
            workers = chance.pick([0, 33, workers + 256, LARGEST])
        path = self.path_to("mark", name)
        answer = self.say(self.numbered(b"mark", workers) + b" " + path)
        if kind_of(answer) == f"{WRONG} 26":
            at = int(answer.split(" ")[1])
            record = records_in(file_at(self.folder, path, LONGEST_JOURNAL))[at]
            self.figures[BEYOND_W if record[-1] >= workers else BY_ANOTHER] += 1

    def plan_and_marks(self):
        if self.plan()[0] != "P":
            # It says the same of every journal, so one will do.
            self.mark()
        elif self.marking:
            for _ in range(self.chance.between(2, 6)):
                self.mark()

    # Lines that are no command.

    def no_command(self):
        chance = self.chance
        words = self.command()
        manner = chance.below(9)
        if manner == 0:
            return chance.pick([b"", b"", b" ", b"  ", b"\0", b"\t", b"\r"])
        if manner == 1:
            return chance.pick(OTHER_WORDS)
        if manner == 2:
            return b" ".join(words[:chance.between(1, len(words) - 1)])
        if manner == 3:
            command = chance.pick([b" ".join(words), b"ended", b"quit", b"figures", b"sum"])
            return command + b" " + chance.pick([b"", b"0", b"ended"])
        if manner == 4:
            words[chance.below(len(words))] += chance.pick([b" ", b"\t", b"\0", b"\r", b"\x0b"])
            return b" ".join(words)
        if manner == 5:
            at = chance.between(2 if words[0] == b"take" else 1, len(words) - 1)
            words[at] = chance.pick(NO_NUMBERS)
            return b" ".join(words)
        if manner == 6:
            command = chance.pick([b"plan ", b"mark 1 ", b"open 1 0 3 "])
            return command + b"p" * chance.pick([0, LONGEST_PATH + 1, LONGEST_LINE - len(command)])
        if manner == 7:
            noise = bytes(chance.pick([chance.below(256), 32, 48, 49]) for _ in range(chance.below(30)))
            return noise.replace(b"\n", b"\0")
        # One byte put in, cut or changed; it may still be a command.
        line = bytearray(b" ".join(words))
        at = chance.below(len(line))
        line[at:at + chance.below(2)] = chance.pick([b"", b" ", b"0", b"7", b"S", b"X", b"x", b"\xff"])
        return bytes(line)

    def say_long(self):
        self.say(self.long_line())

    def long_line(self):
        """A line of about the longest length, or longer than a block."""
        chance = self.chance
        size = chance.pick(LENGTHS)
        words = self.command()
        manner = chance.below(4)
        if manner < 2:  # a command, as far as its length goes
            at = 1 if words[0] in (b"mark", b"open") else -1
            more = size - len(b" ".join(words))
            words[at] = b"0" * more + words[at]
            return b" ".join(words)
        if manner == 2:
            return chance.pick([b"a", b" ", b"plan ", b"ended\r"]) * (size // 4)
        # What is left after so many bytes looks like a command.
        before = chance.pick([8190, 8191, 8192, 65535, 65536])
        return b"a" * before + chance.pick([b"quit", b"ended", b" ".join(words)])

    def long_over_block(self):
        """A long line of which the next block has what would be a command by itself."""
        before = self.chance.pick([LONGEST_LINE + 1, self.chance.between(LONGEST_LINE, BLOCK)])
        self.fill_block(before)
        command = self.chance.pick([b"quit", b"ended", b" ".join(self.command())])
        self.say_at_once(b"a" * before + command, LONG_OVER_BLOCK)

    # The whole.

    def step(self):
        chance = self.chance
        if self.marking and chance.one_in(30):
            self.mark()
        if chance.one_in(25 if self.rounding else 200):
            self.say(chance.pick([b"figures", b"sum"]))
        manner = chance.below(80)
        if manner < 36:
            self.say(self.numbered(b"choose", *self.some_choice()))
        elif manner < 56:
            self.offer_then_take()
        elif manner < 66:
            self.take_changed()
        elif manner < 71:
            self.take_old()
        elif manner < 74:
            self.say(b"ended")
        elif manner < 79:
            self.say(self.no_command())
        else:
            over = self.say_long if self.one_by_one else self.long_over_block
            chance.pick([self.plan, self.plan, self.say_long, self.say_long, over])()

    def steps(self, many):
        for _ in range(many):
            self.step()
            if self.console.run is not None and self.console.run.ended and self.chance.one_in(8):
                return

    def make(self):
        """Runs one after another; now and then `quit`, and lines that nobody hears."""
        chance = self.chance
        self.steps(chance.pick([0, 0, 3, 10]))
        for _ in range(chance.between(1, 5)):
            self.plan_and_marks()
            opened = self.open() == "A"
            if self.rounding and not opened and self.kept_plan() and chance.below(4):
                opened = self.open() == "A"
            self.steps(chance.pick([5, 40, 150, 400]) if opened else chance.between(0, 8))
            if self.rounding:
                self.end_rounding()
        if not self.one_by_one and chance.one_in(5):
            unheard = chance.pick([0, 1, 5, 20000])
            self.lines += [b"quit"] + [chance.pick([b"ended", b"quit", b"", b"open 1"])] * unheard
            self.figures[QUIT] += unheard > 0
        return self

    def input(self):
        """The bytes of the lines; the last newline may be left out."""
        data = b"\n".join(self.lines)
        if not self.lines:
            return data
        if self.lines[-1] and self.chance.one_in(2):
            self.figures[OPEN_END] += 1
            return data
        return data + b"\n"

    def expected(self):
        return b"".join(b"%s\n" % answer.encode("ascii") for answer in self.answers)


def pieces(chance, data):
    """The input in the pieces that it is written in."""
    sizes = chance.pick([
        [len(data)], [BLOCK], [BLOCK, BLOCK - 1, BLOCK + 1], [8191, 8192, 30000, BLOCK],
        [1, 2, 7, 100, 8191, 8192, BLOCK, len(data)], [20, 300, 5000],
    ])
    at = 0
    while at < len(data):
        size = max(1, chance.pick(sizes))
        yield data[at:at + size]
        at += size
