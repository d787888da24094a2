"""The console: a command a line in, an answer a line out, over files in a folder."""

import os
import struct

import plan_file
from journal import LONGEST_JOURNAL, mark, records_in, verdict_line
from plan_file import EDITION, LONGEST_FILE, MOST_TOKENS, Refused
from program import line_of
from rounding import RoundedRun, open_rounded

LONGEST_LINE = 8191
LONGEST_PATH = 4095
LARGEST = 65535
DIGITS = b"0123456789"
# How many numbers follow an event's letter.
NUMBERS = {b"S": 5, b"F": 5, b"X": 2}
# A cell in a file: four bytes, low byte first. What is read: a cell more than any plan has tokens.
CELL = struct.Struct("<I")
LONGEST_CELLS = CELL.size * (MOST_TOKENS + 1)
UNKNOWN = "?"
# A choice, an offer or a taking on a state of zeros.
NO_RUN = "R 14"


def number_in(word):
    """The number that a word is, or None if it is none or does not fit 16 bits."""
    if not word or word.strip(DIGITS):
        return None
    digits = word.lstrip(b"0") or b"0"
    # Not all digits that a line may hold can be handed to int.
    if len(digits) > len(str(LARGEST)) or int(digits) > LARGEST:
        return None
    return int(digits)


def numbers_in(words, many):
    """The numbers that these words are, or None if they are not just so many."""
    numbers = [number_in(word) for word in words]
    return None if len(numbers) != many or None in numbers else numbers


def event_in(words):
    """The event that these words are, as a choice returns it, or None."""
    if words[0] not in NUMBERS:
        return None
    numbers = numbers_in(words[1:], NUMBERS[words[0]])
    return None if numbers is None else (words[0].decode("ascii"), *numbers)


def cells_in(data):
    """The whole cells in these bytes; a shorter rest is ignored."""
    return [cell for cell, in CELL.iter_unpack(data[:len(data) // CELL.size * CELL.size])]


def cells_bytes(cells):
    return b"".join(CELL.pack(cell) for cell in cells)


def is_path(path):
    return 1 <= len(path) <= LONGEST_PATH


def file_at(folder, path, most):
    """So many bytes of a file, or all that it has; b"" if it cannot be read.

    Opened from the folder as the program opens it: the two paths as one could be too long.
    """
    place = os.open(folder, os.O_RDONLY)
    try:
        with open(path, "rb", opener=lambda name, how: os.open(name, how, dir_fd=place)) as file:
            return file.read(most)
    except (OSError, ValueError):  # ValueError: a NUL byte
        return b""
    finally:
        os.close(place)


class Console:
    """Keeps a plan file and a run, or None for a state of zeros, with its cells and figures."""

    def __init__(self, folder):
        self.folder = folder
        self.file = b""
        self.keep(None)
        self.over = False

    def read(self, path, most):
        return file_at(self.folder, path, most)

    def keep(self, run, cells=(), figures=()):
        self.run, self.cells, self.figures = run, cells, figures

    def answer(self, line):
        """What a line, without its newline, is answered by; None for `quit`."""
        if len(line) > LONGEST_LINE:
            return UNKNOWN
        if line == b"quit":
            self.over = True
            return None
        if line == b"ended":
            return "E" if self.run is not None and self.run.ended else "O"
        if line == b"figures":
            return " ".join(["C", *map(str, self.figures)])
        if line == b"sum":
            return f"T {0 if self.run is None else self.run.rounding.sum}"
        word, space, rest = line.partition(b" ")
        if not space:
            return UNKNOWN
        if word == b"plan":
            return self.plan(rest) if is_path(rest) else UNKNOWN
        if word == b"mark":
            workers, _, path = rest.partition(b" ")
            workers = number_in(workers)
            return UNKNOWN if workers is None or not is_path(path) else self.mark(workers, path)
        words = rest.split(b" ")
        if word == b"take":
            event = event_in(words)
            return UNKNOWN if event is None else self.take(event)
        if word == b"open":
            return self.open_by(rest)
        if word in (b"choose", b"offer"):
            numbers = numbers_in(words, 2)
            if numbers is None:
                return UNKNOWN
            return self.choose(*numbers) if word == b"choose" else self.offer(*numbers)
        return UNKNOWN

    def plan(self, path):
        # Kept, refused or not; the run needs it no longer. A longer file is seen to be longer.
        self.file = self.read(path, LONGEST_FILE + 1)
        try:
            plan = plan_file.read(self.file)
        except Refused as refused:
            return f"R {refused.number}"
        return f"P {len(plan.pipes)} {plan.lines} {plan.tokens} {len(plan.records)} {EDITION}"

    def open_by(self, rest):
        """W alone, or with pipe, base and a path."""
        words = rest.split(b" ", 3)
        if len(words) == 1:
            numbers = numbers_in(words, 1)
            return UNKNOWN if numbers is None else self.open(*numbers)
        *words, path = words
        numbers = numbers_in(words, 3)
        return UNKNOWN if numbers is None or not is_path(path) else self.open_rounded(*numbers, path)

    def open(self, workers):
        self.keep(None)
        try:
            self.keep(RoundedRun(plan_file.read(self.file), workers))
        except Refused as refused:
            return f"R {refused.number}"
        return "A"

    def open_rounded(self, workers, pipe, base, path):
        cells = cells_in(self.read(path, LONGEST_CELLS))
        # As many figures are lent as cells; none of either after a refusal.
        figures = [0] * len(cells)
        self.keep(None)
        try:
            run = open_rounded(plan_file.read(self.file), workers, pipe, base, cells, figures)
        except Refused as refused:
            return f"R {refused.number}"
        self.keep(run, cells, figures)
        return "A"

    def choose(self, *choice):
        return NO_RUN if self.run is None else line_of(self.run.choose(*choice, self.cells, self.figures))

    def offer(self, *choice):
        return NO_RUN if self.run is None else line_of(self.run.offer(*choice, self.cells, self.figures))

    def take(self, event):
        return NO_RUN if self.run is None else line_of(self.run.take(event, self.cells, self.figures))

    def mark(self, workers, path):
        # A run of its own, over the kept plan file: the open run is not touched.
        journal = records_in(self.read(path, LONGEST_JOURNAL))
        verdict, _ = mark(self.file, workers, journal)
        return verdict_line(verdict)


def lines_in(data):
    """The lines of an input without their newlines; the last one may lack it."""
    *lines, last = data.split(b"\n")
    return lines + [last] if last else lines


class BuiltConsole(Console):
    """As the program that is built: std opens files by text alone, so one whose path is not UTF-8 cannot be opened."""

    def read(self, path, most):
        try:
            path.decode("utf-8")
        except UnicodeDecodeError:
            return b""
        return super().read(path, most)


def answers_to(folder, lines, made=Console):
    """The answers to these lines, up to `quit`."""
    console = made(folder)
    for line in lines:
        answer = console.answer(line)
        if console.over:
            return
        yield answer


def console_output(folder, data):
    """All bytes that the console writes for this input."""
    return b"".join(b"%s\n" % answer.encode("ascii") for answer in answers_to(folder, lines_in(data)))
