"""The console, line by line, and the random scripts made for it."""

import os
import sys
import tempfile
import unittest
from collections import Counter
from pathlib import Path

HERE = Path(__file__).resolve().parent
sys.path.insert(0, str(HERE))

import makers
import scripts
from cases import CASES
from chance import Chance
from console import (
    LONGEST_CELLS,
    LONGEST_LINE,
    Console,
    cells_bytes,
    cells_in,
    console_output,
    event_in,
    lines_in,
    number_in,
)
from journal import LONGEST_JOURNAL, MOST_EVENTS, RECORD, journal_bytes, journal_of
from plan_file import Plan, encode


class InAFolder(unittest.TestCase):
    def setUp(self):
        room = tempfile.TemporaryDirectory()
        self.addCleanup(room.cleanup)
        self.folder = room.name
        self.put("a.plan", encode(CASES["a"].plan()))
        self.console = Console(self.folder)

    def put(self, name, content):
        (Path(self.folder) / name).write_bytes(content)

    def check(self, *steps):
        """Each step is a line and its answer."""
        for line, answer in steps:
            self.assertEqual(self.console.answer(line), answer, line[:80])


class Numbers(unittest.TestCase):
    def test_numbers(self):
        for word, number in (
            (b"0", 0), (b"1", 1), (b"0001", 1), (b"65535", 65535), (b"00065535", 65535),
            (b"0" * 8000, 0), (b"0" * 8000 + b"7", 7),
        ):
            self.assertEqual(number_in(word), number)
        for word in scripts.NO_NUMBERS + [b" 1", b"1 ", b"1_0", b"9" * 8000]:
            self.assertIsNone(number_in(word), word)

    def test_events(self):
        self.assertEqual(event_in([b"S", b"1", b"2", b"3", b"4", b"5"]), ("S", 1, 2, 3, 4, 5))
        self.assertEqual(event_in([b"X", b"1", b"5"]), ("X", 1, 5))
        for text in (b"", b"S", b"X 1", b"X 1 2 3", b"S 1 2 3 4", b"F 1 2 3 4 5 6", b"R 1 2", b"SF 1 2 3 4 5"):
            self.assertIsNone(event_in(text.split(b" ")))

    def test_lines(self):
        for data, lines in (
            (b"", []), (b"\n", [b""]), (b"a", [b"a"]), (b"a\n", [b"a"]), (b"a\n\nb", [b"a", b"", b"b"]),
        ):
            self.assertEqual(lines_in(data), lines)


class Commands(InAFolder):
    def test_case_a(self):
        self.check(
            (b"plan a.plan", "P 1 1 1 0 1"), (b"open 1", "A"), (b"choose 0 0", "S 0 0 0 0 0"), (b"ended", "O"),
            (b"offer 0 0", "F 0 0 0 0 0"), (b"take F 0 0 0 0 0", "F 0 0 0 0 0"), (b"take F 0 0 0 0 0", "R 19"),
            (b"choose 0 0", "X 0 0"), (b"ended", "E"), (b"choose 0 0", "R 11"),
        )
        self.assertFalse(self.console.over)
        self.check((b"quit", None))
        self.assertTrue(self.console.over)

    def test_state_of_zeros(self):
        zeros = (
            (b"ended", "O"), (b"choose 0 0", "R 14"), (b"offer 0 0", "R 14"), (b"take X 0 0", "R 14"),
            (b"choose 65535 65535", "R 14"), (b"take S 9 9 9 9 9", "R 14"), (b"take S 9 9 9 9", "?"),
        )
        self.check(*zeros, (b"open 1", "R 1"), *zeros, (b"plan a.plan", "P 1 1 1 0 1"), *zeros)
        for workers in (b"0", b"33", b"65535"):
            self.check((b"open 1", "A"), (b"choose 0 0", "S 0 0 0 0 0"), (b"open " + workers, "R 8"), *zeros)
        # The plan's own refusals come first; a line that is no command leaves the run.
        self.check((b"open 1", "A"), (b"open 65536", "?"), (b"offer 0 0", "S 0 0 0 0 0"))
        self.check((b"plan missing", "R 1"), (b"open 33", "R 1"), *zeros)

    def test_the_plan_is_kept_and_the_run_goes_on(self):
        self.put("b.plan", encode(CASES["b"].plan(lines=3)))
        self.put("bad.plan", encode(CASES["b"].plan())[1:])
        self.check((b"plan a.plan", "P 1 1 1 0 1"), (b"open 1", "A"), (b"choose 0 0", "S 0 0 0 0 0"))
        for name, answer in ((b"b.plan", "P 1 3 17 2 1"), (b"bad.plan", "R 2"), (b"missing", "R 1")):
            self.check((b"plan " + name, answer), (b"offer 0 0", "F 0 0 0 0 0"), (b"choose 0 1", "R 10"))
        self.check((b"plan bad.plan", "R 2"), (b"plan ", "?"), (b"open 1", "R 2"), (b"offer 0 0", "R 14"))
        # The file as it was when it was read.
        self.check((b"plan b.plan", "P 1 3 17 2 1"))
        self.put("b.plan", b"")
        self.check((b"open 1", "A"), (b"plan b.plan", "R 1"))

    def test_paths(self):
        content = encode(CASES["d"].plan())
        for name in scripts.NAMES:
            self.check((b"plan " + name, "P 1 1 1 0 1" if name == b"a.plan" else "R 1"))
            self.put(os.fsdecode(name), content)
            self.check((b"plan " + name, "P 1 1 2 1 1"))
        for name in scripts.NOT_THERE:
            self.check((b"plan " + name, "R 1"))
        for size, answer in ((4094, "P 1 1 2 1 1"), (4095, "P 1 1 2 1 1"), (4096, "?"), (4097, "?"), (8186, "?")):
            before = size - len(b"a.plan")
            self.check((b"plan " + b"./" * (before // 2) + b"/" * (before % 2) + b"a.plan", answer))
            self.check((b"plan " + b"a" * size, "R 1" if size <= 4095 else "?"))

    def test_length_of_a_plan(self):
        longest = encode(makers.longest_plan())
        self.put("longest", longest)
        self.check((b"plan longest", "P 16 32 4096 4096 1"))
        for more in (1, 2, 70000):
            self.put("longer", longest + bytes(more))
            self.check((b"plan longer", "R 1"), (b"open 1", "R 1"))
            self.put("longer", bytes(more) + longest)
            self.check((b"plan longer", "R 1"), (b"open 1", "R 1"))

    def test_no_command_changes_nothing(self):
        self.check((b"plan a.plan", "P 1 1 1 0 1"), (b"open 1", "A"), (b"choose 0 0", "S 0 0 0 0 0"))
        for line in (
            b"", b" ", b"ended ", b" ended", b"Ended", b"quit ", b" quit", b"quit\r", b"ended\0", b"plan",
            b"plan ", b"open", b"open ", b"open  1", b"open 1 ", b"open 1 1", b"open 1\r", b"open\t1",
            b"choose 0", b"choose 0 0 ", b"choose  0 0", b"choose 0 0 0", b"choose 0 65536", b"choose 65536 0",
            b"offer 0", b"take", b"take ", b"take X 0", b"take X 0 0 0", b"take S 0 0 0 0",
            b"take S 0 0 0 0 0 0", b"take f 0 0 0 0 0", b"take F 0 0 0 65536 0", b"a" * 70000,
            b"mark", b"mark ", b"mark  ", b"mark 1", b"mark 1 ", b"mark  1 j", b" mark 1 j", b"mark\t1 j",
            b"mark 1\tj", b"mark x j", b"mark 1a j", b"mark -1 j", b"mark +1 j", b"mark j", b"mark j 1",
            b"mark 65536 j", b"mark 65537 j", b"mark 4294967297 j", b"Mark 1 j", b"mark 1 " + b"j" * 4096,
            b"mark ".ljust(LONGEST_LINE - 1, b"0") + b"1 j", b"marks 1 j",
            b"open 1 0", b"open 1 0 ", b"open 1 0 3", b"open 1 0 3 ", b"open  1 0 3 c", b"open 1  0 3 c",
            b"open 1 0  3 c", b" open 1 0 3 c", b"open\t1 0 3 c", b"open 1 0 3\tc", b"open x 0 3 c",
            b"open 1 x 3 c", b"open 1 0 x c", b"open 1 0 c", b"open 1 0 c 3", b"open 65536 0 3 c",
            b"open 1 65536 3 c", b"open 1 0 65539 c", b"open 1 -0 3 c", b"open 1 0 +3 c", b"Open 1 0 3 c",
            b"open 1 0 3 " + b"c" * 4096, b"open ".ljust(LONGEST_LINE - 5, b"0") + b"1 0 3 c",
            b"figures ", b" figures", b"figures 0", b"Figures", b"figure", b"figuress", b"figures\r",
            b"sum ", b" sum", b"sum 0", b"Sum", b"su", b"sums", b"sum\0",
        ):
            before, file = self.console.run.state(), self.console.file
            self.check((line, "?"))
            self.assertEqual((self.console.run.state(), self.console.file), (before, file))
            self.assertFalse(self.console.over)

    def test_length_of_a_line(self):
        self.check((b"plan a.plan", "P 1 1 1 0 1"), (b"open 1", "A"))
        for size, answer in ((LONGEST_LINE, "S 0 0 0 0 0"), (LONGEST_LINE + 1, "?")):
            self.check((b"offer 0 ".ljust(size, b"0"), answer), (b"take S 0 0 0 0 ".ljust(size, b"0"), answer))
            self.check((b"open ".ljust(size - 1, b"0") + b"1", "A" if answer != "?" else "?"))

    def test_output(self):
        data = b"plan a.plan\nopen 1\n\nchoose 0 0\nended"
        text = b"P 1 1 1 0 1\nA\n?\nS 0 0 0 0 0\nO\n"
        self.assertEqual(console_output(self.folder, data), text)
        self.assertEqual(console_output(self.folder, data + b"\n"), text)
        self.assertEqual(console_output(self.folder, data + b"\nquit"), text)
        self.assertEqual(console_output(self.folder, data + b"\nquit\nended\n\n"), text)
        self.assertEqual(console_output(self.folder, data + b"\nquit \n"), text + b"?\n")
        self.assertEqual(console_output(self.folder, b""), b"")
        self.assertEqual(console_output(self.folder, b"\n"), b"?\n")


class Marks(InAFolder):
    """Case a with one worker: S 0 0 0 0 0, F 0 0 0 0 0, X 0 0."""

    STARTED = bytes.fromhex("53 0000 0000 0000 0000 0000")
    FINISHED = bytes.fromhex("46 0000 0000 0000 0000 0000")
    STOPPED = bytes.fromhex("58 0000 0000 0000 0000 0000")
    WHOLE = STARTED + FINISHED + STOPPED

    def check_journal(self, content, answer, workers=b"1"):
        self.put("j", content)
        self.check((b"mark " + workers + b" j", answer))

    def test_verdicts(self):
        self.check((b"plan a.plan", "P 1 1 1 0 1"))
        self.check_journal(self.WHOLE, "complete")
        self.check_journal(self.STARTED + self.FINISHED, "correct so far")
        self.check_journal(self.STARTED, "correct so far")
        self.check_journal(b"", "correct so far")
        self.check_journal(self.FINISHED, "wrong 0 20")
        self.check_journal(self.STARTED * 2, "wrong 1 20")
        self.check_journal(self.WHOLE + self.STOPPED, "wrong 3 11")
        for at, number in ((0, 20), (1, 10), (2, 10), (3, 20), (4, 20), (5, 20), (6, 20), (7, 20), (8, 20),
                           (9, 26), (10, 26)):
            record = bytearray(self.STARTED)
            record[at] += 1
            self.check_journal(bytes(record), f"wrong 0 {number}")
            record = bytearray(self.STOPPED)
            record[at] += 1
            self.check_journal(self.STARTED + self.FINISHED + bytes(record), f"wrong 2 {number}")
        self.put("d.plan", encode(CASES["d"].plan(lines=2)))
        self.check((b"plan d.plan", "P 1 2 2 1 1"))
        for record, number in (((83, 1, 0, 1, 0, 0), 12), ((83, 0, 0, 1, 0, 1), 26), ((83, 0, 0, 0, 0, 0), 20)):
            self.check_journal(journal_bytes([record]), f"wrong 0 {number}")
        start = (83, 0, 0, 1, 0, 1)
        self.check_journal(journal_bytes([start, (70, 0, 0, 1, 0, 0)]), "wrong 1 26", b"2")
        # Line 1 may start while worker 1 runs line 0 at pipe 1.
        self.put("two.plan", encode(Plan([True, True], 2, 2)))
        self.check((b"plan two.plan", "P 2 2 2 0 1"))
        records = [(83, 0, 0, 0, 0, 1), (70, 0, 0, 0, 0, 1), (83, 0, 1, 0, 0, 1), (83, 1, 0, 1, 1, 1)]
        self.check_journal(journal_bytes(records), "wrong 3 13", b"2")

    def test_refused_openings(self):
        # At first there is no plan.
        self.put("j", self.WHOLE)
        self.check((b"mark 1 j", "R 1"), (b"mark 0 j", "R 1"), (b"plan a.plan", "P 1 1 1 0 1"))
        for workers, answer in ((0, "R 8"), (1, "complete"), (32, "complete"), (33, "R 8"), (257, "R 8"),
                                (65535, "R 8")):
            self.check((b"mark %d j" % workers, answer), (b"mark 000%d j" % workers, answer))
            self.check((b"mark %d missing" % workers, answer.replace("complete", "correct so far")))
        self.put("bad.plan", encode(CASES["a"].plan())[1:])
        self.check((b"plan bad.plan", "R 2"), (b"mark 1 j", "R 2"), (b"mark 33 j", "R 2"))

    def test_whole_records(self):
        self.check((b"plan a.plan", "P 1 1 1 0 1"))
        for many in range(1, RECORD):
            self.check_journal(self.WHOLE + self.STOPPED[:many], "complete")
            self.check_journal(b"\xff" * many, "correct so far")

    def test_paths(self):
        self.check((b"plan a.plan", "P 1 1 1 0 1"))
        for name in scripts.NAMES[1:]:
            self.check((b"mark 1 " + name, "correct so far"))
            self.put(os.fsdecode(name), self.WHOLE)
            self.check((b"mark 1 " + name, "complete"), (b"plan a.plan", "P 1 1 1 0 1"))
        for name in scripts.NOT_THERE:
            self.check((b"mark 1 " + name, "correct so far"))
        # A second space is the path's own.
        self.put(" j", self.WHOLE)
        self.check((b"mark 1 j", "correct so far"), (b"mark 1  j", "complete"), (b"mark 1   j", "correct so far"))
        for size, answer in ((4094, "complete"), (4095, "complete"), (4096, "?"), (4097, "?")):
            self.check((b"mark 1 ." + b"/" * (size - 3) + b" j", answer))
            self.check((b"mark 1 " + b"a" * size, "correct so far" if size <= 4095 else "?"))
        line = b"mark ".ljust(LONGEST_LINE - 4, b"0") + b"1  j"
        self.assertEqual(len(line), LONGEST_LINE)
        self.check((line, "complete"), (line.replace(b"mark ", b"mark 0"), "?"))

    def test_the_open_run_is_not_touched(self):
        self.put("d.plan", encode(CASES["d"].plan()))
        self.put("j", self.WHOLE)
        self.check((b"plan d.plan", "P 1 1 2 1 1"), (b"open 2", "A"), (b"choose 1 0", "S 0 0 1 0 1"))
        # The kept plan counts, not that of the open run.
        for plan, answer in ((b"a.plan", "complete"), (b"missing", "R 1"), (b"d.plan", "wrong 0 20")):
            self.console.answer(b"plan " + plan)
            before = self.console.run.state(), self.console.file
            self.check((b"mark 1 j", answer), (b"mark 0 j", "R 1" if answer == "R 1" else "R 8"))
            self.assertEqual((self.console.run.state(), self.console.file), before)
        self.check((b"offer 1 0", "F 0 0 1 0 1"), (b"choose 0 0", "R 26"), (b"choose 1 0", "F 0 0 1 0 1"))
        self.check((b"ended", "O"), (b"mark 1 j", "wrong 0 20"), (b"choose 0 0", "S 0 0 0 1 0"))
        # Nor is a state of zeros.
        self.check((b"open 0", "R 8"), (b"mark 1 j", "wrong 0 20"), (b"choose 0 0", "R 14"), (b"ended", "O"))

    def test_length_of_a_journal(self):
        self.assertEqual((MOST_EVENTS, LONGEST_JOURNAL), (131073, 1441814))
        plan = Plan(makers.big_pipes(), 32, 4096)
        self.put("full.plan", encode(plan))
        records, _ = journal_of(plan, 1, makers.one_worker_list(plan))
        whole = journal_bytes(records)
        self.check((b"plan full.plan", "P 16 32 4096 0 1"))
        self.check_journal(whole, "complete")
        self.check_journal(whole + whole[:10], "complete")
        self.check_journal(whole + whole[:11], "wrong 131073 11")
        self.check_journal(whole * 3, "wrong 131073 11")
        self.check_journal(whole[:-1], "correct so far")


class Roundings(InAFolder):
    """Case d: token 0 waits for 1, so that the cell of 1 passes first."""

    def setUp(self):
        super().setUp()
        self.put("d.plan", encode(CASES["d"].plan(pipes=[True, False, True], lines=2)))
        self.put("c", cells_bytes([4, 3]))
        self.check((b"plan d.plan", "P 3 2 2 1 1"))

    NONE = ((b"figures", "C"), (b"sum", "T 0"))

    def to_the_end(self):
        """One worker to the end of case d."""
        for line in (0, 1):
            for _ in range(6):
                self.assertIn(self.console.answer(b"choose 0 %d" % line)[0], "SF")
        self.check((b"choose 0 0", "X 0 0"), (b"ended", "E"))

    def test_a_run(self):
        self.check(*self.NONE, (b"open 1 2 5 c", "A"), (b"figures", "C 0 0"), (b"sum", "T 0"))
        # A cell passes when its token finishes that pipe.
        for answer in ("S 0 0 1 0 0", "F 0 0 1 0 0", "S 0 1 1 0 0", "F 0 1 1 0 0", "S 0 2 1 0 0"):
            self.check((b"choose 0 0", answer), (b"figures", "C 0 0"), (b"sum", "T 0"))
        # An offer and a taking that is refused pass none.
        self.check((b"offer 0 0", "F 0 2 1 0 0"), (b"take F 0 2 0 0 0", "R 19"), (b"choose 1 0", "R 26"))
        self.check((b"figures", "C 0 0"), (b"sum", "T 0"))
        self.check((b"take F 0 2 1 0 0", "F 0 2 1 0 0"), (b"figures", "C 0 5"), (b"sum", "T 3"))
        for _ in range(6):
            self.check((b"figures", "C 0 5"), (b"sum", "T 3"))
            self.console.answer(b"choose 0 1")
        self.check((b"choose 0 0", "X 0 0"), (b"ended", "E"), (b"figures", "C 0 5"), (b"sum", "T 7"))
        self.check((b"choose 0 0", "R 11"), (b"figures", "C 0 5"), (b"sum", "T 7"))

    def test_pipes_and_bases(self):
        for pipe, base, figures in ((0, 5, "C 0 5"), (2, 5, "C 0 5"), (0, 3, "C 3 3"), (2, 3, "C 3 3")):
            self.check((b"open 1 %d %d c" % (pipe, base), "A"), (b"figures", "C 0 0"), (b"sum", "T 0"))
            self.to_the_end()
            self.check((b"figures", figures), (b"sum", "T 7"))

    def test_what_is_lent(self):
        for line, answer in (
            (b"open 1", "A"), (b"open 0", "R 8"), (b"open 33", "R 8"), (b"open 0 2 5 c", "R 8"),
            (b"open 1 1 5 c", "R 16"), (b"open 1 2 4 c", "R 17"), (b"open 1 2 5 missing", "R 18"),
        ):
            self.check((b"open 1 0 5 c", "A"))
            self.to_the_end()
            # What is no command leaves them, and so does a plan.
            self.check((b"open 1 0 5", "?"), (b"plan missing", "R 1"), (b"plan d.plan", "P 3 2 2 1 1"))
            self.check((b"figures", "C 0 5"), (b"sum", "T 7"))
            # None of either after an opening without rounding, or one that is refused.
            self.check((line, answer), *self.NONE)
            self.check((b"choose 0 0", "S 0 0 1 0 0" if answer == "A" else "R 14"), *self.NONE)
        # The file as it was when it was read.
        self.check((b"open 1 0 5 c", "A"))
        self.put("c", b"")
        self.to_the_end()
        self.check((b"figures", "C 0 5"), (b"sum", "T 7"))

    def test_order_of_refusals(self):
        for line, number in (
            (b"33 3 4 missing", 8), (b"0 2 5 c", 8), (b"1 3 4 missing", 16), (b"1 1 5 c", 16), (b"1 65535 5 c", 16),
            (b"1 258 5 c", 16), (b"1 2 4 missing", 17), (b"1 2 0 c", 17), (b"1 2 261 c", 17), (b"1 2 5 missing", 18),
        ):
            self.check((b"open 1", "A"), (b"open " + line, f"R {number}"), (b"offer 0 0", "R 14"))
        self.put("bad.plan", encode(CASES["d"].plan())[1:])
        for path, number in ((b"bad.plan", 2), (b"missing", 1)):
            self.check((b"plan " + path, f"R {number}"), (b"open 33 3 4 missing", f"R {number}"), *self.NONE)

    def test_cells(self):
        fit = cells_bytes([4, 3])
        for content, number in (
            (fit, 0), (fit + b"\1", 0), (fit + b"\xff\xff\xff", 0), (fit + bytes(4), 18), (fit[:-1], 18), (b"", 18),
            (fit[:4], 18), (fit * 3, 18), (cells_bytes([1_000_000] * 2), 0), (cells_bytes([0, 1_000_001]), 18),
            (cells_bytes([1_000_001, 0]), 18), (b"\0\0\0\1" * 2, 18), (b"\xff" * 8, 18), (bytes(8), 0),
        ):
            self.put("c", content)
            self.check((b"open 1 2 5 c", f"R {number}" if number else "A"))
            self.check((b"figures", "C" if number else "C 0 0"))
        # Low byte first.
        self.assertEqual(cells_in(bytes.fromhex("01020304 05060708 09")), [0x04030201, 0x08070605])
        self.assertEqual(cells_bytes([0x04030201]), b"\1\2\3\4")
        # A missing file is an empty one, and fits a plan without tokens.
        self.put("none.plan", encode(CASES["c"].plan()))
        self.check((b"plan none.plan", "P 1 1 0 0 1"), (b"open 1 0 5 missing", "A"), *self.NONE)
        self.check((b"choose 0 0", "X 0 0"), *self.NONE, (b"open 1 0 5 d.plan", "R 18"))

    def test_how_many_cells(self):
        self.assertEqual(LONGEST_CELLS, 4 * 4097)
        self.put("full.plan", encode(Plan([True], 1, 4096)))
        self.check((b"plan full.plan", "P 1 1 4096 0 1"))
        for many, number in ((4095, 18), (4096, 0), (4097, 18), (4098, 18), (8192, 18), (70000, 18)):
            self.put("c", cells_bytes([1_000_000] * many))
            self.check((b"open 1 0 3 c", f"R {number}" if number else "A"))
            self.check((b"figures", "C" if number else "C" + " 0" * 4096))
        self.put("c", cells_bytes([1_000_000] * 4096) + b"\0\0\0")
        self.check((b"open 1 0 3 c", "A"), (b"choose 0 0", "S 0 0 0 0 0"), (b"choose 0 0", "F 0 0 0 0 0"))
        self.check((b"sum", "T 1000000"), (b"figures", "C 999999" + " 0" * 4095))

    def test_paths(self):
        for name in scripts.NAMES[1:]:
            self.check((b"open 1 2 5 " + name, "R 18"))
            self.put(os.fsdecode(name), cells_bytes([4, 3]))
            self.check((b"open 1 2 5 " + name, "A"))
        for name in scripts.NOT_THERE:
            self.check((b"open 1 2 5 " + name, "R 18"))
        # A fourth space is the path's own.
        self.put(" c", cells_bytes([4, 3]))
        self.put("c", b"")
        self.check((b"open 1 2 5 c", "R 18"), (b"open 1 2 5  c", "A"), (b"open 1 2 5   c", "R 18"))
        for size, answer in ((4094, "A"), (4095, "A"), (4096, "?"), (4097, "?")):
            self.check((b"open 1 2 5 ." + b"/" * (size - 3) + b" c", answer))
        line = b"open 1 ".ljust(LONGEST_LINE - 6, b"0") + b"2 5  c"
        self.assertEqual(len(line), LONGEST_LINE)
        self.check((line, "A"), (line.replace(b"1 ", b"1 0", 1), "?"), (b"open 001 0002 05  c", "A"))

    def test_marks_leave_them(self):
        self.check((b"open 1 0 5 c", "A"))
        self.to_the_end()
        self.put("j", Marks.WHOLE)
        for line in (b"mark 1 j", b"mark 0 j", b"mark 1 missing"):
            self.assertNotEqual(self.console.answer(line), "?")
            self.check((b"figures", "C 0 5"), (b"sum", "T 7"), (b"ended", "E"))


class Scripts(unittest.TestCase):
    def test_scripts(self):
        chance = Chance(3014)
        figures = Counter()
        for _ in range(120):
            with tempfile.TemporaryDirectory() as folder:
                script = scripts.Script(chance, folder).make()
                data = script.input()
                self.assertEqual(console_output(folder, data), script.expected())
                self.assertEqual(b"".join(scripts.pieces(chance, data)), data)
                figures.update(script.figures)
        tried = [kind for kind in scripts.KINDS if figures[kind]]
        self.assertGreater(len(tried), 0.9 * len(scripts.KINDS))


if __name__ == "__main__":
    unittest.main()
