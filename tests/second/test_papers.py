"""What the paper states with figures, and the whole-run claims on random plans."""

import copy
import sys
import unittest
from collections import Counter
from itertools import combinations
from pathlib import Path

HERE = Path(__file__).resolve().parent
sys.path.insert(0, str(HERE))

import journal_makers
import makers
import plan_file
from cases import CASE_A_FILE, CASE_A_INPUT, CASE_A_OUTPUT, CASES
from chance import Chance
from journal import COMPLETE, SO_FAR, WRONG, choice_of, journal_bytes, journal_of, mark, record_of, records_in
from makers import by_practice, one_worker_list, program_input, raw_file, raw_record
from plan_file import Plan, Refused, encode
from program import output
from run import FINISHED, MOST_WORKERS, PIPES_EACH, REFUSED, STARTED, STOPPED, Run
from run_vectors import checksum, made_input, refusal_entries
from sheet import plain_sheet, stays_by_chains
from tables import Tables


def answer(data):
    """0 if the reader takes the file, else its number."""
    try:
        plan_file.read(data)
    except Refused as refused:
        return refused.number
    return 0


def events(plan, workers, choices):
    run = Run(plan, workers)
    return run, [run.choose(*choice) for choice in choices]


def order_of(happened):
    return [event[3] for event in happened if event[0] == STARTED and event[2] == 0]


class PlansWithKnownOrders(unittest.TestCase):
    def test_orders(self):
        for name, case in CASES.items():
            for pipes in ([True], [True, True], [True, False, True]):
                for lines in (1, 2, 3, 7):
                    with self.subTest(name=name, pipes=pipes, lines=lines):
                        plan = case.plan(pipes, lines)
                        sheet = plain_sheet(plan)
                        self.assertEqual(sheet.order, case.order)
                        self.assertEqual(sheet.stays, case.stays)
                        self.assertEqual(stays_by_chains(plan), case.stays)
                        choices = one_worker_list(plan)
                        run, happened = events(plan, 1, choices)
                        self.assertEqual(order_of(happened), case.order)
                        self.assertTrue(run.ended)

    def test_case_a_whole(self):
        self.assertEqual(encode(CASES["a"].plan()), CASE_A_FILE)
        self.assertEqual(output(CASE_A_FILE, CASE_A_INPUT), CASE_A_OUTPUT)

    def test_case_b_lines_and_choices(self):
        plan = CASES["b"].plan(lines=3)
        _, happened = events(plan, 1, one_worker_list(plan))
        line_0 = [e[3] for e in happened if e[0] == STARTED and e[1] == 0]
        self.assertEqual(line_0, [0, 3, 6, 10, 14, 7])
        self.assertEqual(len(one_worker_list(CASES["b"].plan([True] * 3))), 103)

    def test_one_choice(self):
        for name in "ce":
            plan = CASES[name].plan()
            run, happened = events(plan, 1, [(0, 0)])
            self.assertEqual(happened, [(STOPPED, 0, 0)])
            self.assertTrue(run.ended)
            self.assertEqual(len(one_worker_list(plan)), 1)

    def test_count_is_after_the_rise(self):
        # "Bigger than" would lose the very next token.
        self.assertEqual(plain_sheet(Plan([True], 1, 2, [(0, [1])])).order, [1, 0])


class PlanFile(unittest.TestCase):
    def test_limits(self):
        for pipes, number in ((0, 3), (1, 0), (16, 0), (17, 3)):
            self.assertEqual(answer(raw_file(pipes=b"S" * pipes)), number)
        for lines, number in ((0, 3), (1, 0), (32, 0), (33, 3)):
            self.assertEqual(answer(raw_file(lines=lines)), number)
        for tokens, number in ((0, 0), (4096, 0), (4097, 3)):
            self.assertEqual(answer(raw_file(tokens=tokens)), number)
        for total, number in ((8192, 0), (8193, 7)):
            self.assertEqual(answer(encode(makers.plan_with_total(total))), number)
        for edition, number in ((0, 3), (1, 0), (2, 3)):
            self.assertEqual(answer(raw_file(edition=edition)), number)
        for count, number in ((0, 5), (1, 0), (16, 0), (17, 5)):
            record = raw_record(1, list(range(2, 2 + count)))
            self.assertEqual(answer(raw_file(record, r=1)), number)

    def test_longest_file(self):
        data = encode(makers.longest_plan())
        self.assertEqual(len(data), 32796)
        self.assertEqual(answer(data), 0)
        self.assertEqual(answer(b"\0" + data), 1)
        # Every token has a record, so nobody can be ordered.
        self.assertEqual(plain_sheet(makers.longest_plan()).order, [])

    def test_lengths(self):
        self.assertEqual([answer(CASE_A_FILE[i:]) for i in range(14)], [0, 2] + [1] * 12)

    def test_order_of_checks(self):
        ok = raw_record(1, [2])
        for record, number in (
            (raw_record(5, [5]), 6),
            (raw_record(5, [9, 8]), 5),
            (raw_record(5, [9, 5]), 5),
            (raw_record(5, [5, 4]), 6),
            (raw_record(20, [20]), 5),
            (raw_record(5, [5], 2), 5),
            (raw_record(5, [5]) + raw_record(4, [1]), 6),
        ):
            self.assertEqual(answer(raw_file(ok + record, tokens=20, r=2)), number)
            self.assertEqual(answer(raw_file(ok + record, pipes=b"P", tokens=20, r=2)), 4)
            self.assertEqual(answer(raw_file(ok + record, pipes=b"P", tokens=20, lines=0)), 3)
            self.assertEqual(answer(raw_file(ok + record, pipes=b"P", lines=0, a=0)), 2)
        # R comes last.
        self.assertEqual(answer(raw_file(ok + raw_record(5, [5]), tokens=20, r=1)), 6)
        self.assertEqual(answer(raw_file(ok, tokens=20, r=2)), 5)
        # 7 before the numbers, and after a record that is cut short.
        full = makers.plan_with_total(8192)
        body = encode(full)[:full.start]
        for record, number in (
            (raw_record(600, [600]), 7),
            (raw_record(600, [9, 8]), 7),
            (raw_record(600, [601, 602])[:-1], 5),
            (raw_record(600, [], 0), 5),
        ):
            self.assertEqual(answer(raw_file(body + record, tokens=4096, r=513)), number)

    def test_one_file_for_each_plan(self):
        chance = Chance(1)
        for _ in range(200):
            plan = makers.random_plan(chance, pipes=16, lines=32, tokens=20)
            data = encode(plan)
            self.assertEqual(plan_file.read(data), plan)
            self.assertEqual(plan_file.read(data).start + len(plan.pipes) + 12, len(data))
            # And no other file is read as it: what a damaged file is read as
            # has that file as its own.
            other = makers.damaged(chance, data)
            if answer(other) == 0:
                self.assertEqual(encode(plan_file.read(other)), other)


class WrongTurns(unittest.TestCase):
    # Lines alone: practice's workers go with them.
    LINES = [0, 0, 0, 1, 1, 1, 1]

    def test_parallel_pipe_is_not_ordered(self):
        plan = Plan([True, False], 2, 2)
        run, happened = events(plan, 2, by_practice(plan, 2, self.LINES))
        self.assertEqual(happened[-1], (FINISHED, 1, 1, 1, 1, 1))
        self.assertTrue(run.running[0])
        self.assertNotIn((FINISHED, 0, 1, 0, 0, 0), happened)

    def test_both_serial(self):
        plan = Plan([True, True], 2, 2)
        _, happened = events(plan, 2, by_practice(plan, 2, self.LINES))
        self.assertEqual([e for e in happened if e[0] == REFUSED][0], (REFUSED, 12))
        self.assertEqual(happened[5], (REFUSED, 12))

    def test_placing_goes_by_place(self):
        plan = CASES["d"].plan(lines=2)
        _, happened = events(plan, 1, [(0, 0)])
        self.assertEqual(happened, [(STARTED, 0, 0, 1, 0, 0)])

    def test_ready_before_new(self):
        self.assertEqual(plain_sheet(CASES["i"].plan()).order, [2, 1, 3, 0])

    def test_one_line_keeps_its_own_fall(self):
        for pipes in ([True], [True, True], [True, False]):
            plan = Plan(pipes, 1, 3)
            run, happened = events(plan, 1, [(0, 0)] * (2 * 3 * len(pipes) + 1))
            self.assertTrue(run.ended)
            self.assertNotIn(REFUSED, [event[0] for event in happened])


class Refusals(unittest.TestCase):
    def test_worker_limit(self):
        data = encode(CASES["b"].plan())
        for workers, text in ((0, b"R 8\n"), (1, b"O\n"), (32, b"O\n"), (33, b"R 8\n")):
            self.assertEqual(output(data, bytes([workers])), text)
        self.assertEqual(output(data, b""), b"R 8\n")
        self.assertEqual(output(b"", b"\x21\0"), b"R 1\n")

    def test_numbers(self):
        run = Run(Plan([True, True], 2, 1), 2)
        for worker, line, expected in (
            (0, 2, (REFUSED, 10)),
            (2, 2, (REFUSED, 10)),
            (2, 1, (REFUSED, 26)),
            (0, 1, (REFUSED, 12)),
            (1, 0, (STARTED, 0, 0, 0, 0, 1)),
            (1, 1, (REFUSED, 12)),  # and not 13
            (0, 0, (REFUSED, 26)),
            (2, 0, (REFUSED, 26)),
            (1, 0, (FINISHED, 0, 0, 0, 0, 1)),
            (0, 0, (STARTED, 0, 1, 0, 0, 0)),
            (0, 1, (REFUSED, 13)),  # it would stop
            (1, 0, (REFUSED, 26)),
            (0, 0, (FINISHED, 0, 1, 0, 0, 0)),
            (0, 0, (REFUSED, 12)),
            (1, 1, (STOPPED, 1, 1)),
            (1, 1, (REFUSED, 11)),
            (0, 0, (REFUSED, 11)),
            (2, 0, (REFUSED, 26)),
            (2, 2, (REFUSED, 10)),
        ):
            before = run.state()
            self.assertEqual(run.choose(worker, line), expected)
            if expected[0] == REFUSED:
                self.assertEqual(run.state(), before)

    def test_a_first_stop_is_not_the_end(self):
        run, happened = events(Plan([True, True], 2, 1), 2, [(0, 0), (0, 0), (1, 1)])
        self.assertEqual(happened[-1], (STOPPED, 1, 1))
        self.assertFalse(run.ended)
        self.assertEqual([run.choose(0, 0)[0] for _ in range(2)], [STARTED, FINISHED])
        self.assertTrue(run.ended)

    def test_opening_counters(self):
        run = Run(Plan([True, False, True], 2, 1), 1)
        expected = [0] * 512
        expected[0:3] = [0, 1, 1]
        expected[16:19] = [1, 1, 2]
        self.assertEqual(run.counters, expected)


class WorkersByNumber(unittest.TestCase):
    """Request 2.14."""

    def check(self, run, steps):
        """Each step is a choice and its answer; a refused one changes nothing."""
        for worker, line, expected in steps:
            before = run.state(), list(run.line_of)
            self.assertEqual(run.choose(worker, line), expected)
            if expected[0] == REFUSED:
                self.assertEqual((run.state(), run.line_of), before)

    def two_wait_at_pipe_1(self, tokens):
        """Lines 0 and 1 may start pipe 1, line 2 pipe 0; with 2 tokens it would stop there."""
        choices = [(0, 0), (0, 0), (0, 1), (0, 1)]
        return events(Plan([True, False], 3, tokens), 3, choices)[0]

    def test_case_a(self):
        self.assertEqual(
            output(CASE_A_FILE, b"\x01" + 6 * b"\x00"),
            b"S 0 0 0 0 0\n" b"F 0 0 0 0 0\n" b"X 0 0\n" b"E\n",
        )

    def test_worker_comes_before_line(self):
        data = encode(Plan([True], 2, 1))
        self.assertEqual(output(data, bytes([2, 1, 0])), b"S 0 0 0 0 1\nO\n")
        self.assertEqual(output(data, bytes([2, 0, 1])), b"R 12\nO\n")

    def test_lone_last_byte_is_ignored(self):
        data = encode(Plan([True], 1, 1))
        self.assertEqual(output(data, b"\x01"), b"O\n")
        for choices, text in (
            ([], b"O\n"),
            ([(1, 0)], b"S 0 0 0 0 1\nO\n"),
            ([(1, 0), (1, 0)], b"S 0 0 0 0 1\nF 0 0 0 0 1\nO\n"),
            ([(1, 0), (1, 0), (0, 0)], b"S 0 0 0 0 1\nF 0 0 0 0 1\nX 0 0\nE\n"),
        ):
            for lone in (b"", b"\x00", b"\x01", b"\x02", b"\xff"):
                self.assertEqual(output(data, program_input(2, choices) + lone), text)
        # A lone byte is no choice of a refused opening or plan either.
        self.assertEqual(output(data, b"\x00\x00"), b"R 8\n")
        self.assertEqual(output(data, b"\x21\x00"), b"R 8\n")
        self.assertEqual(output(b"", b"\x01\x00"), b"R 1\n")

    def test_state_records_the_worker(self):
        run = self.two_wait_at_pipe_1(3)
        self.assertEqual(run.worker_of, [None, None, None])
        for worker, line, recorded in (
            (2, 0, [2, None, None]),
            (0, 1, [2, 0, None]),
            (1, 2, [2, 0, 1]),
            (0, 1, [2, None, 1]),
            (2, 0, [None, None, 1]),
            (1, 2, [None, None, None]),
        ):
            self.assertNotEqual(run.choose(worker, line)[0], REFUSED)
            self.assertEqual(run.worker_of, recorded)

    def test_finish_is_by_that_worker(self):
        for own in range(4):
            others = [(by, 0, (REFUSED, 26)) for by in range(4) if by != own]
            run = Run(Plan([True, False], 2, 2), 4)
            self.check(run, [(own, 0, (STARTED, 0, 0, 0, 0, own))])
            self.check(run, others + [(own, 0, (FINISHED, 0, 0, 0, 0, own))])
            self.check(run, [(own, 0, (STARTED, 0, 1, 0, 0, own))])
            # Now one of the others is busy.
            busy = (own + 1) % 4
            self.check(run, [(busy, 1, (STARTED, 1, 0, 1, 1, busy))])
            self.check(run, others + [(own, 0, (FINISHED, 0, 1, 0, 0, own))])

    def test_26_comes_after_10(self):
        run = Run(Plan([True], 2, 1), 3)
        for worker in (0, 2, 3, 32, 255):
            for line in (2, 32, 255):
                self.check(run, [(worker, line, (REFUSED, 10))])

    def test_26_comes_before_11_and_12(self):
        run = Run(Plan([True], 2, 1), 3)
        beyond = [(by, line, (REFUSED, 26)) for by in (3, 4, 32, 255) for line in (0, 1)]
        # Line 0 may start, line 1 waits; line 0 runs; line 1 may stop; the end.
        self.check(run, beyond + [(2, 1, (REFUSED, 12))])
        self.check(run, [(2, 0, (STARTED, 0, 0, 0, 0, 2))] + beyond)
        self.check(run, [(2, 0, (FINISHED, 0, 0, 0, 0, 2))] + beyond)
        self.check(run, [(1, 1, (STOPPED, 1, 1))] + beyond)
        self.check(run, [(by, line, (REFUSED, 11)) for by in range(3) for line in (0, 1)])

    def test_12_comes_before_13(self):
        run = Run(Plan([True], 3, 3), 2)
        self.check(run, [(1, 0, (STARTED, 0, 0, 0, 0, 1))])
        # Busy or idle, a line with its counter above 0 gets 12.
        self.check(run, [(by, line, (REFUSED, 12)) for by in (0, 1) for line in (1, 2)])

    def test_13_is_the_named_workers_other_line(self):
        run = self.two_wait_at_pipe_1(3)
        self.check(run, [
            (1, 0, (STARTED, 0, 1, 0, 0, 1)),
            (1, 1, (REFUSED, 13)),
            (1, 2, (REFUSED, 13)),
            (2, 1, (STARTED, 1, 1, 1, 1, 2)),
            (2, 2, (REFUSED, 13)),
            (1, 2, (REFUSED, 13)),
            (0, 2, (STARTED, 2, 0, 2, 2, 0)),
        ])
        # All W lines run, and each worker may finish its own.
        self.assertEqual([run.choose(by, line)[0] for by, line in ((0, 2), (1, 0), (2, 1))],
                         [FINISHED] * 3)

    def test_a_stop_needs_an_idle_worker_and_keeps_it_so(self):
        run = self.two_wait_at_pipe_1(2)
        self.check(run, [
            (1, 0, (STARTED, 0, 1, 0, 0, 1)),
            (1, 2, (REFUSED, 13)),
            (0, 2, (STOPPED, 2, 0)),
        ])
        self.assertEqual(run.worker_of, [1, None, None])
        self.check(run, [(0, 1, (STARTED, 1, 1, 1, 1, 0))])

    def test_a_finish_frees_its_worker(self):
        for workers in (1, 3):
            run = Run(Plan([True, True], 2, 2), workers)
            last = workers - 1
            self.check(run, [
                (last, 0, (STARTED, 0, 0, 0, 0, last)),
                (last, 0, (FINISHED, 0, 0, 0, 0, last)),
                (last, 1, (STARTED, 1, 0, 1, 1, last)),
                (last, 0, (REFUSED, 13)),
                (last, 1, (FINISHED, 1, 0, 1, 1, last)),
                (last, 0, (STARTED, 0, 1, 0, 0, last)),
            ])

    def test_lines_alone_answer_as_before(self):
        # 13 exactly if W or more lines run, and all else the same.
        chance = Chance(3003)
        seen = set()
        for _ in range(400):
            plan = makers.random_plan(chance, pipes=3, lines=5, tokens=8)
            workers = chance.pick([1, 2, 3, 4, 32])
            run, before = Run(plan, workers), RunOfLines(plan, workers)
            for line in makers.random_lines(chance, plan, 300, past=2):
                event = run.choose(run.practice_worker(line), line)
                self.assertEqual(without_worker(event), before.choose(line))
                self.assertEqual(run.ended, before.ended())
                seen.add(event[1] if event[0] == REFUSED else event[0])
        self.assertEqual(seen, {STARTED, FINISHED, STOPPED, 10, 11, 12, 13})

    def test_end_states_name_no_worker(self):
        # The same lines, by the lowest idle worker and by the highest.
        chance = Chance(3004)
        for _ in range(60):
            plan = makers.random_plan(chance, pipes=3, lines=4, tokens=8)
            lines = [line for _, line in makers.allowed_list(chance, plan, 4, 1000)]
            ends = []
            for workers, pick in ((4, min), (4, max), (32, min), (32, max)):
                run = Run(plan, workers)
                for line in lines:
                    own = run.worker_of[line]
                    run.choose(pick(run.idle()) if own is None else own, line)
                self.assertTrue(run.ended)
                self.assertEqual(run.worker_of, [None] * plan.lines)
                ends.append(run.state())
            self.assertEqual(ends, ends[:1] * 4)


def without_worker(event):
    return event if event[0] == REFUSED else event[:-1]


class RunOfLines:
    """A run before 2.14: a choice names a line, and W says how many lines may run."""

    def __init__(self, plan, limit):
        self.plan, self.limit = plan, limit
        self.tables = Tables(plan)
        self.full = [2 if serial else 1 for serial in plan.pipes]
        self.counters = [list(self.full) for _ in range(plan.lines)]
        self.counters[0] = [1] * len(plan.pipes)
        for counters in self.counters:
            counters[0] = 1
        self.counters[0][0] = 0
        self.at = [0] * plan.lines
        self.carried = {}
        self.running = set()
        self.stopped = False

    def ended(self):
        waits = all(counters[pipe] > 0 for counters, pipe in zip(self.counters, self.at))
        return self.stopped and not self.running and waits

    def choose(self, line):
        if line >= self.plan.lines:
            return (REFUSED, 10)
        if self.ended():
            return (REFUSED, 11)
        pipe = self.at[line]
        if line in self.running:
            return self.finish(line, pipe)
        if self.counters[line][pipe] > 0:
            return (REFUSED, 12)
        if len(self.running) >= self.limit:
            return (REFUSED, 13)
        self.counters[line][pipe] = self.full[pipe]
        if pipe == 0:
            self.carried[line] = self.tables.take()
            if self.carried[line] is None:
                self.stopped = True
                return (STOPPED, line)
        self.running.add(line)
        return (STARTED, line, pipe, *self.carried[line])

    def finish(self, line, pipe):
        token, place = self.carried[line]
        if pipe == 0:
            self.tables.finish(token)
        if self.plan.pipes[pipe]:
            self.counters[(line + 1) % self.plan.lines][pipe] -= 1
        self.at[line] = (pipe + 1) % len(self.plan.pipes)
        self.counters[line][self.at[line]] -= 1
        self.running.remove(line)
        return (FINISHED, line, pipe, token, place)


def chain_meets_trouble(plan, token, seen=()):
    """The criterion word by word: follow every chain until something comes."""
    if token >= plan.tokens or token in seen:
        return True
    lists = dict(plan.records)
    return any(
        chain_meets_trouble(plan, number, seen + (token,)) for number in lists.get(token, [])
    )


class WholeRuns(unittest.TestCase):
    """Demand 3 on random small plans with random choices."""

    def check_answers(self, run, at_work):
        """What each choice would get now; the events told who runs which line."""
        workers = range(run.workers)
        busy = set(at_work.values())
        idle = [by for by in workers if by not in busy]
        some_allowed = False
        for line in range(run.lines):
            if run.ended:
                expected = [11 for by in workers]
            elif line in at_work:
                expected = [0 if by == at_work[line] else 26 for by in workers]
            elif run.counters[line * PIPES_EACH + run.at[line]] > 0:
                expected = [12 for by in workers]
            else:
                expected = [13 if by in busy else 0 for by in workers]
            self.assertEqual([run.refusal(by, line) for by in workers], expected)
            self.assertEqual(run.refusal(run.workers, line), 26)
            some_allowed |= 0 in expected
            # Practice's worker is allowed exactly if one is.
            practice = run.practice_worker(line)
            self.assertEqual(practice, at_work.get(line, min(idle, default=0)))
            self.assertEqual(expected[practice] == 0, 0 in expected)
        self.assertEqual([run.refusal(by, run.lines) for by in (0, run.workers)], [10, 10])
        self.assertEqual(some_allowed, not run.ended)

    def check_run(self, plan, workers, choices):
        sheet = plain_sheet(plan)
        m, p = len(sheet.order), len(plan.pipes)
        run = Run(plan, workers)
        accepted = 0
        started, finished = {}, {}
        at_work = {}
        happened = []
        for now, (worker, line) in enumerate(choices):
            self.assertEqual(run.ended, accepted == 2 * m * p + 1)
            self.check_answers(run, at_work)
            before = run.state()
            number = run.refusal(worker, line)
            event = run.choose(worker, line)
            happened.append(event)
            if number:
                self.assertEqual(event, (REFUSED, number))
                self.assertEqual(run.state(), before)
                continue
            accepted += 1
            self.assertEqual(event[-1], worker)
            if event[0] == STARTED:
                at_work[line] = worker
            elif event[0] == FINISHED:
                self.assertEqual(at_work.pop(line), worker)
            self.assertEqual(run.worker_of, [at_work.get(name) for name in range(plan.lines)])
            self.assertEqual(run.running_lines, sum(run.running))
            # No worker runs two lines.
            self.assertEqual(run.running_lines, len(set(at_work.values())))
            if event[0] == STOPPED:
                self.assertEqual(event[1], line)
                continue
            kind, on_line, pipe, token, place = without_worker(event)
            self.assertEqual(on_line, line)
            self.assertEqual((place, line), (sheet.place[token], sheet.line[token]))
            times = started if kind == STARTED else finished
            self.assertNotIn((token, pipe), times)
            times[token, pipe] = now
        self.assertEqual(run.ended, accepted == 2 * m * p + 1)
        self.check_answers(run, at_work)

        order = order_of(happened)
        self.assertEqual(order, sheet.order[:len(order)])
        lists = dict(plan.records)
        for (token, pipe), now in started.items():
            if plan.pipes[pipe]:
                if sheet.place[token] > 0:
                    before = sheet.order[sheet.place[token] - 1]
                    self.assertLess(finished[before, pipe], now)
                for number in lists.get(token, []):
                    self.assertLess(finished[number, pipe], now)
        for (token, pipe), now in finished.items():
            self.assertLess(started[token, pipe], now)
        if run.ended:
            self.assertEqual(order, sheet.order)
            each = {(token, pipe) for token in sheet.order for pipe in range(p)}
            self.assertEqual(set(started), each)
            self.assertEqual(set(finished), each)
            self.assertEqual(run.tables.still_deferred(), sheet.stays)
            self.assertEqual(at_work, {})
        return run

    def test_random_plans(self):
        chance = Chance(3001)
        ended = 0
        for number in range(220):
            plan = makers.random_plan(chance, pipes=3, lines=4, tokens=10)
            ends = []
            # The one-worker run, accepted throughout, its last choice stops.
            choices = one_worker_list(plan)
            run, happened = events(plan, 1, choices)
            self.assertNotIn(REFUSED, [event[0] for event in happened])
            self.assertEqual(happened[-1], (STOPPED, choices[-1][1], 0))
            self.assertEqual(choices, by_practice(plan, 1, [line for _, line in choices]))
            self.assertNotIn(STOPPED, [event[0] for event in happened[:-1]])
            self.assertTrue(run.ended)
            ends.append(self.check_run(plan, 1, choices))
            for workers in (chance.between(1, 3), 32):
                choices = makers.allowed_list(chance, plan, workers, 400, strays=4)
                ends.append(self.check_run(plan, workers, choices))
                choices = makers.random_list(chance, plan, workers, 60, past=2)
                ends.append(self.check_run(plan, workers, choices))
            # All ends are one, whatever W.
            states = [run.state() for run in ends if run.ended]
            ended += len(states)
            for state in states:
                self.assertEqual(state, states[0])
        self.assertGreater(ended, 600)

    def test_stays_deferred_by_chains(self):
        chance = Chance(3002)
        for _ in range(1500):
            plan = makers.random_plan(chance, tokens=8)
            stays = plain_sheet(plan).stays
            self.assertEqual(stays, stays_by_chains(plan))
            if sum(len(numbers) for _, numbers in plan.records) <= 14:
                word_by_word = [
                    token for token in range(plan.tokens) if chain_meets_trouble(plan, token)
                ]
                self.assertEqual(stays, word_by_word)
        for _ in range(200):
            plan = makers.random_plan(chance, tokens=60)
            self.assertEqual(plain_sheet(plan).stays, stays_by_chains(plan))

    def test_longest_chains(self):
        records = makers.full_records()
        plan = Plan([True], 1, 4096, records)
        self.assertEqual(sum(len(numbers) for _, numbers in records), 8192)
        self.assertEqual(plain_sheet(plan).order, list(range(4095, -1, -1)))
        self.assertEqual(stays_by_chains(plan), [])
        stuck = Plan([True], 1, 4096, records[:-1] + [(4094, [4095]), (4095, [4096])])
        self.assertEqual(plain_sheet(stuck).stays, list(range(4096)))
        self.assertEqual(stays_by_chains(stuck), list(range(4096)))


class MoreWorkers(unittest.TestCase):
    """Request 2.12, with the workers of 2.14."""

    def lists(self, chance, plan, workers):
        """Of most lists some choices are refused; they end anywhere in a run."""
        most = chance.between(1, 200)
        yield makers.allowed_list(chance, plan, workers, most)
        yield makers.allowed_list(chance, plan, workers, most, strays=3)
        yield makers.random_list(chance, plan, workers, most, past=2)
        yield [(chance.below(workers + 2), chance.below(plan.lines + 1)) for _ in range(most)]

    def tried(self, seed, many, limit, **sizes):
        """Random plans, each with a limit and some lists."""
        chance = Chance(seed)
        for _ in range(many):
            plan = makers.random_plan(chance, **sizes)
            workers = limit(chance)
            for choices in self.lists(chance, plan, workers):
                yield plan, workers, choices

    def check_same(self, plan, larger, choices, run, answers):
        for workers in larger:
            again, there = events(plan, workers, choices)
            self.assertEqual(there, answers)
            self.assertEqual(again.state(), run.state())

    def check_reuse(self, plan, workers, choices, larger):
        run, answers = events(plan, workers, choices)
        accepted = [choice for choice, event in zip(choices, answers) if event[0] != REFUSED]
        happened = [event for event in answers if event[0] != REFUSED]
        self.check_same(plan, larger, accepted, run, happened)
        return len(accepted), len(choices)

    def test_reuse(self):
        whole = parts = 0

        def limit(chance):
            return chance.pick([1, 1, 2, 3, 4, 31, chance.between(1, 31)])

        for plan, workers, choices in self.tried(3005, 100, limit, pipes=3, lines=5, tokens=10):
            # W itself too: what is refused plays no part.
            larger = range(workers, MOST_WORKERS + 1)
            accepted, many = self.check_reuse(plan, workers, choices, larger)
            # With one worker named, a larger hall is hardly a question.
            named = {worker for worker, _ in choices}
            whole += accepted == many and len(named) > 1
            parts += 0 < accepted < many
        self.assertGreater(whole, 40)
        self.assertGreater(parts, 200)

    def test_reuse_on_many_lines(self):
        sizes = {"pipes": 16, "lines": 32, "tokens": 60}
        for plan, workers, choices in self.tried(3006, 20, lambda chance: chance.between(1, 31), **sizes):
            self.check_reuse(plan, workers, choices, (workers + 1, MOST_WORKERS))

    def test_refused_ones_that_more_workers_change(self):
        # Only those by a worker of W or more: 13 goes by the named worker alone.
        sizes = {"pipes": 3, "lines": 5, "tokens": 10}
        for plan, workers, choices in self.tried(3007, 60, lambda chance: chance.between(1, 4), **sizes):
            choices = [(worker % workers, line) for worker, line in choices]
            run, answers = events(plan, workers, choices)
            self.check_same(plan, (workers + 1, MOST_WORKERS), choices, run, answers)
        plan = Plan([True], 1, 1)
        self.assertEqual(events(plan, 1, [(1, 0)])[1], [(REFUSED, 26)])
        self.assertEqual(events(plan, 2, [(1, 0)])[1], [(STARTED, 0, 0, 0, 0, 1)])

    def test_reuse_of_the_wrong_turn(self):
        plan = Plan([True, False], 2, 2)
        choices = by_practice(plan, 2, WrongTurns.LINES)
        self.assertEqual(choices, [(0, 0)] * 3 + [(1, 1)] * 4)
        self.assertEqual(self.check_reuse(plan, 2, choices, (3, 32)), (7, 7))
        # Fewer workers are another matter.
        for worker, number in ((1, 26), (0, 13)):
            _, answers = events(plan, 1, choices[:3] + [(worker, 1)])
            self.assertEqual(answers[3], (REFUSED, number))

    def allowed(self, run):
        return [
            (worker, line) for line in range(run.lines) for worker in range(run.workers)
            if not run.refusal(worker, line)
        ]

    def after(self, run, *choices):
        """The event of each choice, and the run they leave; the run given stays as it is."""
        run = copy.deepcopy(run)
        return {choice: run.choose(*choice) for choice in choices}, run

    def kinds(self, happened):
        return "".join(sorted(event[0] for event in happened.values()))

    def check_swaps(self, run):
        """All pairs on different lines; how many were accepted in both orders, by kind."""
        compared = Counter()
        for one, two in combinations(self.allowed(run), 2):
            if one[1] == two[1]:
                continue
            ahead, left = self.after(run, one, two)
            back, right = self.after(run, two, one)
            if REFUSED in self.kinds(ahead) + self.kinds(back):
                continue
            self.assertEqual(ahead, back)
            self.assertEqual((left.state(), left.line_of), (right.state(), right.line_of))
            compared[self.kinds(ahead)] += 1
        return compared

    def takers(self, run):
        """The lines that may take a token or run pipe 0; in a run never two."""
        return [
            line for line in range(run.lines)
            if run.at[line] == 0 and (run.running[line] or not run.counters[line * PIPES_EACH])
        ]

    def test_swap(self):
        chance = Chance(3008)
        compared = Counter()
        for _ in range(200):
            plan = makers.random_plan(chance, pipes=4, lines=6, tokens=8)
            workers = chance.between(2, 4)
            run = Run(plan, workers)
            for choice in makers.allowed_list(chance, plan, workers, chance.between(1, 70)):
                self.assertLess(len(self.takers(run)), 2)
                compared += self.check_swaps(run)
                run.choose(*choice)
        # With one taker there are no two stops.
        self.assertEqual(set(compared), {"SS", "FS", "FF", "SX", "FX"})
        self.assertGreater(min(compared[kind] for kind in ("SS", "FS", "FF")), 500)
        self.assertGreater(sum(compared.values()), 5000)

    def two_takers(self, plan):
        """A state that no run leaves: line 2 may take a token as well as line 0."""
        run = Run(plan, 3)
        run.counters[2 * PIPES_EACH] = 0
        return run

    def check_orders_differ(self, run, one, two, kinds):
        self.assertEqual(self.takers(run), [0, 2])
        ahead, left = self.after(run, one, two)
        back, right = self.after(run, two, one)
        self.assertEqual((self.kinds(ahead), self.kinds(back)), (kinds, kinds))
        self.assertNotEqual(left.state(), right.state())
        return (ahead, left), (back, right)

    def test_swap_of_two_starts_needs_a_run(self):
        run = self.two_takers(Plan([True], 3, 2))
        (ahead, _), (back, _) = self.check_orders_differ(run, (0, 0), (1, 2), "SS")
        self.assertEqual(ahead[0, 0], (STARTED, 0, 0, 0, 0, 0))
        self.assertEqual(back[0, 0], (STARTED, 0, 0, 1, 1, 0))

    def test_swap_of_two_finishes_needs_a_run(self):
        # Tokens 2 and 3 run pipe 0, and each has a waiter: the events are the
        # same, but not the ready queue.
        run = self.two_takers(Plan([True], 3, 4, [(0, [2]), (1, [3])]))
        self.assertEqual([run.choose(0, 0)[3], run.choose(1, 2)[3]], [2, 3])
        (ahead, left), (back, right) = self.check_orders_differ(run, (0, 0), (1, 2), "FF")
        self.assertEqual(ahead, back)
        self.assertEqual((list(left.tables.ready), list(right.tables.ready)), ([0, 1], [1, 0]))

    def test_swap_of_start_and_finish_needs_a_run(self):
        # Token 1 runs pipe 0, and 0 waits for it: the other line takes 0 or 2.
        run = self.two_takers(Plan([True], 3, 3, [(0, [1])]))
        run.choose(0, 0)
        (ahead, _), (back, _) = self.check_orders_differ(run, (0, 0), (1, 2), "FS")
        self.assertEqual(ahead[1, 2], (STARTED, 2, 0, 0, 1, 1))
        self.assertEqual(back[1, 2], (STARTED, 2, 0, 2, 1, 1))


class OfferThenTake(unittest.TestCase):
    """Request 2.3, with the workers of 2.14."""

    def whole(self, run):
        """All that a run holds."""
        return run.state(), tuple(run.line_of), run.running_lines, run.workers

    def walks(self, seed, many, **sizes):
        """Random runs, each before one of its choices, refused ones among them."""
        chance = Chance(seed)
        for _ in range(many):
            plan = makers.random_plan(chance, **sizes)
            workers = chance.pick([1, 2, 3, 32])
            run = Run(plan, workers)
            for choice in makers.allowed_list(chance, plan, workers, 120, strays=chance.pick([3, 9])):
                yield run, choice
                run.choose(*choice)

    def chosen(self, run, worker, line):
        """What the single choice would answer, made on a copy."""
        return copy.deepcopy(run).choose(worker, line)

    def check_take(self, run, event, expected):
        """A refused taking changes nothing; an accepted one is made on a copy, and is the choice."""
        before = self.whole(run)
        taken, chosen = copy.deepcopy(run), copy.deepcopy(run)
        self.assertEqual(taken.take(event), expected)
        if expected[0] != REFUSED:
            self.assertEqual(chosen.choose(event[-1], event[1]), expected)
        self.assertEqual(self.whole(taken), self.whole(chosen))
        self.assertEqual(self.whole(run), before)

    def test_would_take(self):
        seen = Counter()
        for run, _ in self.walks(3009, 150, pipes=2, lines=4, tokens=14):
            before = run.tables.state()
            would = run.tables.would_take()
            self.assertEqual(run.tables.state(), before)
            ahead = copy.deepcopy(run.tables)
            self.assertEqual(ahead.take(), would)
            # How many were deferred on the way, or whether one came off the queue.
            seen["ready" if run.tables.ready else min(ahead.count - run.tables.count, 3)] += 1
        self.assertEqual(set(seen), {"ready", 0, 1, 2, 3})
        self.assertGreater(min(seen.values()), 50)

    def test_would_take_at_the_limits(self):
        for plan, would in (
            (makers.longest_plan(), None),
            (Plan([True], 1, 4096, makers.full_records()), (4095, 0)),
            (Plan([True], 1, 4096), (0, 0)),
            (Plan([True], 1, 0), None),
        ):
            tables = Tables(plan)
            self.assertEqual(tables.would_take(), would)
            self.assertEqual(tables.state(), Tables(plan).state())
            self.assertEqual(tables.take(), would)

    def test_offers_change_nothing(self):
        seen = Counter()
        for run, _ in self.walks(3010, 20, pipes=3, lines=4, tokens=8):
            workers = {*range(min(run.workers, 3)), run.workers - 1, run.workers, 65535}
            before = self.whole(run)
            for line in (*range(run.lines + 2), 65535):
                for worker in workers:
                    event = run.offer(worker, line)
                    self.assertEqual(event, self.chosen(run, worker, line))
                    seen[event[1] if event[0] == REFUSED else event[0]] += 1
            self.assertEqual(self.whole(run), before)
        self.assertEqual(set(seen), {STARTED, FINISHED, STOPPED, 10, 11, 12, 13, 26})

    def test_offer_and_taking_are_the_choice(self):
        chance = Chance(3011)
        seen = Counter()
        for sizes in ({"pipes": 3, "lines": 5, "tokens": 12}, {"pipes": 16, "lines": 32, "tokens": 60}):
            for _ in range(250 if sizes["lines"] == 5 else 25):
                plan = makers.random_plan(chance, **sizes)
                workers = chance.pick([1, 2, 3, 4, 32])
                one, other = Run(plan, workers), Run(plan, workers)
                for worker, line in makers.allowed_list(chance, plan, workers, 900, strays=6):
                    event = other.offer(worker, line)
                    taken = event if event[0] == REFUSED else other.take(event)
                    self.assertEqual((event, taken), (one.choose(worker, line),) * 2)
                    seen[event[0]] += 1
                    if event[0] == REFUSED or chance.one_in(8):
                        self.assertEqual(self.whole(one), self.whole(other))
                self.assertEqual(self.whole(one), self.whole(other))
        self.assertEqual(set(seen), {STARTED, FINISHED, STOPPED, REFUSED})
        self.assertGreater(sum(seen.values()), 20000)

    def changed_by_one(self, event):
        """The event with one number one up or down; each with that number's index."""
        for at in range(1, len(event)):
            for number in (event[at] - 1, event[at] + 1):
                if number >= 0:
                    yield at, (*event[:at], number, *event[at + 1:])

    def test_changed_events(self):
        seen = Counter()
        for run, choice in self.walks(3012, 30, pipes=3, lines=4, tokens=8):
            event = run.offer(*choice)
            if event[0] == REFUSED:
                continue
            self.check_take(run, event, event)
            for at, other in self.changed_by_one(event):
                line, worker = other[1], other[-1]
                number = run.refusal(worker, line)
                # Another idle worker would start or stop the line just as well.
                own = at == len(event) - 1 and not number and event[0] != FINISHED
                self.check_take(run, other, other if own else (REFUSED, number or 19))
                what = "worker" if at == len(event) - 1 else ("line", "pipe", "token", "place")[at - 1]
                seen[what, "own" if own else number or 19] += 1
        for what in ("pipe", "token", "place"):
            self.assertEqual({number for name, number in seen if name == what}, {19})
        self.assertEqual({number for name, number in seen if name == "line"}, {10, 12, 13, 19, 26})
        self.assertEqual({number for name, number in seen if name == "worker"}, {13, 26, "own"})

    def test_kinds_swapped(self):
        seen = Counter()
        for run, choice in self.walks(3013, 40, pipes=2, lines=3, tokens=5):
            worker, line = choice
            event = run.offer(*choice)
            if event[0] == REFUSED:
                continue
            if event[0] == STOPPED:
                others = [(kind, line, 0, 0, 0, worker) for kind in (STARTED, FINISHED)]
                # The token and place that come next, if any came.
                tables = run.tables
                others.append((STARTED, line, 0, tables.count, tables.placed, worker))
            else:
                swapped = FINISHED if event[0] == STARTED else STARTED
                others = [(swapped, *event[1:]), (STOPPED, line, worker)]
            for other in others:
                self.check_take(run, other, (REFUSED, 19))
                seen[event[0], other[0]] += 1
        self.assertEqual(len(seen), 6)
        self.assertGreater(min(seen.values()), 20)

    def test_own_refusals_come_first(self):
        run = Run(Plan([True, True], 2, 1), 2)

        def check(worker, line, number):
            """Events that differ in all they can; none is 19 unless the number is."""
            for kind in (STARTED, FINISHED):
                self.check_take(run, (kind, line, 9, 65535, 77, worker), (REFUSED, number))
            if not self.chosen(run, worker, line)[0] == STOPPED:
                self.check_take(run, (STOPPED, line, worker), (REFUSED, number))

        for worker, line, number in (
            (2, 2, 10), (65535, 65535, 10), (2, 0, 26), (2, 1, 26), (0, 1, 12), (0, 0, 19),
        ):
            check(worker, line, number)
        run.choose(1, 0)
        for worker, line, number in ((0, 0, 26), (2, 0, 26), (1, 1, 12), (1, 0, 19)):
            check(worker, line, number)
        run.choose(1, 0)
        run.choose(0, 0)
        # Line 1 would stop, by an idle worker.
        for worker, line, number in ((0, 1, 13), (1, 1, 19), (1, 0, 26), (0, 0, 19)):
            check(worker, line, number)
        run.choose(0, 0)
        self.assertEqual(run.take((STOPPED, 1, 1)), (STOPPED, 1, 1))
        self.assertTrue(run.ended)
        for worker, line, number in ((0, 2, 10), (2, 0, 26), (0, 0, 11), (1, 1, 11)):
            check(worker, line, number)

    def test_an_old_offer(self):
        run = Run(Plan([True, False], 2, 3), 2)
        first = run.offer(0, 0)
        self.assertEqual(first, (STARTED, 0, 0, 0, 0, 0))
        # The other worker was quicker.
        self.assertEqual(run.take(run.offer(1, 0)), (STARTED, 0, 0, 0, 0, 1))
        self.check_take(run, first, (REFUSED, 26))
        run.choose(1, 0)
        # The line is one pipe on.
        self.check_take(run, first, (REFUSED, 19))
        self.check_take(run, run.offer(0, 0), (STARTED, 0, 1, 0, 0, 0))
        # What others did between is no reason, if it is still what the line would do.
        still = run.offer(0, 0)
        run.choose(1, 1)
        self.check_take(run, still, still)


class MarkingAJournal(unittest.TestCase):
    """Request 2.6, with the workers of 2.14."""

    # The small run of the README: case h on two serial pipes and two lines, two workers.
    PLAN = CASES["h"].plan([True, True], 2)
    WRITTEN = """
        S 0 0 2 0 0
        F 0 0 2 0 0
        S 1 0 1 1 0
        S 0 1 2 0 1
        F 1 0 1 1 0
        F 0 1 2 0 1
        S 1 1 1 1 0
        S 0 0 0 2 1
        F 1 1 1 1 0
        F 0 0 0 2 1
        X 1 0 0 0 0
        S 0 1 0 2 0
        F 0 1 0 2 0
    """

    def record(self, text):
        letter, *numbers = text.split()
        return (ord(letter), *map(int, numbers))

    def written(self):
        return [self.record(line) for line in self.WRITTEN.strip().split("\n")]

    def with_one(self, at, text):
        """The journal with one record written otherwise, or one more."""
        records = self.written()
        records[at:at + 1] = [self.record(text)]
        return records

    def check(self, records, verdict, workers=2, plan=None):
        """The verdict; and the run is left as by the choices of the events before the refusal."""
        plan = plan or self.PLAN
        there, run = mark(encode(plan), workers, records)
        self.assertEqual(there, verdict)
        accepted = records[:verdict[1]] if verdict[0] == WRONG else records
        chosen, answers = events(plan, workers, [choice_of(record) for record in accepted])
        self.assertEqual([record_of(answer) for answer in answers], [tuple(record) for record in accepted])
        self.assertEqual((run.state(), run.line_of), (chosen.state(), chosen.line_of))

    def check_wrong(self, *steps):
        """Each step is an index, what is written there, and the refusal there."""
        for at, text, number in steps:
            with self.subTest(at=at, text=text):
                self.check(self.with_one(at, text), (WRONG, at, number))

    def test_bytes(self):
        case_a = bytes.fromhex(
            "53 0000 0000 0000 0000 0000" "46 0000 0000 0000 0000 0000" "58 0000 0000 0000 0000 0000"
        )
        records = [(83, 0, 0, 0, 0, 0), (70, 0, 0, 0, 0, 0), (88, 0, 0, 0, 0, 0)]
        self.assertEqual(journal_bytes(records), case_a)
        self.assertEqual(mark(CASE_A_FILE, 1, records_in(case_a))[0], (COMPLETE,))
        # Low byte first; whole records only.
        data = bytes.fromhex("53 0102 0304 0506 0708 090a")
        self.assertEqual(records_in(data), [(83, 0x201, 0x403, 0x605, 0x807, 0xA09)])
        for size in range(34):
            self.assertEqual(records_in(case_a[:size]), records[:size // 11])
        self.assertEqual(record_of((STOPPED, 5, 6)), (88, 5, 0, 0, 0, 6))
        self.assertEqual(record_of((FINISHED, 1, 2, 3, 4, 5)), (70, 1, 2, 3, 4, 5))
        chance = Chance(3015)
        for _ in range(200):
            record = (chance.below(256), *(chance.below(65536) for _ in range(5)))
            self.assertEqual(records_in(journal_bytes([record])), [record])

    def test_the_small_run(self):
        records = self.written()
        for many in range(13):
            self.check(records[:many], (SO_FAR,))
        self.check(records, (COMPLETE,))
        # In a larger hall, too; in a smaller one worker 1 is not there.
        self.check(records, (COMPLETE,), workers=32)
        self.check(records, (WRONG, 3, 26), workers=1)

    def test_a_stop_is_not_the_end(self):
        self.assertEqual(self.written()[10][0], ord(STOPPED))
        self.check(self.written()[:11], (SO_FAR,))
        for plan in (CASES["c"].plan(), CASES["e"].plan()):
            self.check([], (SO_FAR,), 1, plan)
            self.check([(88, 0, 0, 0, 0, 0)], (COMPLETE,), 1, plan)

    def test_a_choices_own_numbers(self):
        self.check_wrong(
            (0, "S 2 0 2 0 0", 10), (0, "S 65535 0 2 0 65535", 10), (10, "X 2 0 0 0 2", 10),
            (0, "S 0 0 2 0 2", 26), (0, "S 1 0 2 0 2", 26),  # 26 before 12
            (1, "F 0 0 2 0 1", 26), (5, "F 0 1 2 0 0", 26), (12, "F 0 1 0 2 1", 26),
            (4, "F 0 1 2 0 0", 26),  # the line is another's, whatever else
            (3, "S 1 0 1 1 1", 26),
            (0, "S 1 0 2 0 0", 12), (11, "X 1 0 0 0 1", 12),
            (3, "S 0 1 2 0 0", 13), (7, "S 0 0 0 2 0", 13),
            (13, "X 1 0 0 0 0", 11), (13, "S 0 0 3 3 0", 11), (13, "F 0 1 0 2 0", 11),
            (13, "X 2 0 0 0 0", 10), (13, "X 1 0 0 0 2", 26),  # both before 11
        )
        # A stop by a worker who runs another line.
        self.check(self.written()[:8] + [self.record("X 1 0 0 0 1")], (WRONG, 8, 26))
        stopping = [self.record(text) for text in ("S 0 0 0 0 1", "F 0 0 0 0 1", "S 0 1 0 0 1", "X 1 0 0 0 1")]
        self.check(stopping, (WRONG, 3, 13), 2, Plan([True, True], 2, 1))

    def test_each_field(self):
        self.check_wrong(
            (0, "F 0 0 2 0 0", 20), (1, "S 0 0 2 0 0", 20), (10, "S 1 0 0 0 0", 20), (10, "S 1 0 3 3 0", 20),
            (0, "X 0 0 0 0 0", 20), (0, "X 0 0 2 0 0", 20), (1, "X 0 0 0 0 0", 20), (1, "X 0 0 2 0 0", 20),
            (2, "S 1 1 1 1 0", 20), (3, "S 0 0 2 0 1", 20), (3, "S 0 2 2 0 1", 20), (3, "S 0 257 2 0 1", 20),
            (5, "F 0 0 2 0 1", 20),
            (0, "S 0 0 0 0 0", 20), (0, "S 0 0 258 0 0", 20), (4, "F 1 0 2 1 0", 20),
            (2, "S 1 0 1 2 0", 20), (2, "S 1 0 1 257 0", 20), (2, "S 1 0 1 0 0", 20), (4, "F 1 0 1 0 0", 20),
            # Another line's own step is another event: its other fields are that line's.
            (6, "S 0 1 1 1 0", 20), (7, "S 1 0 0 2 0", 20), (9, "F 1 0 0 2 1", 12),
            # A stop has 0 in these three.
            (10, "X 1 1 0 0 0", 20), (10, "X 1 0 1 0 0", 20), (10, "X 1 0 0 3 0", 20), (10, "X 1 256 0 0 0", 20),
        )
        # The line and the worker name the choice, so a start by another idle worker is an event.
        records = self.with_one(0, "S 0 0 2 0 1")
        self.check(records, (WRONG, 1, 26))
        records[1] = self.record("F 0 0 2 0 1")
        self.check(records, (COMPLETE,))

    def test_letters_that_are_no_kind(self):
        letters = [byte for byte in range(256) if byte not in b"SFX"]
        for at, record in enumerate(self.written()):
            for letter in letters:
                records = self.written()
                records[at] = (letter, *record[1:])
                self.assertEqual(mark(encode(self.PLAN), 2, records)[0], (WRONG, at, 20))
        # The choice's own numbers come first.
        self.check_wrong((0, "s 2 0 2 0 0", 10), (0, "s 1 0 2 0 0", 12), (13, "x 1 0 0 0 0", 11))

    def test_the_openings_numbers_come_first(self):
        wrong = [self.record("S 9 9 9 9 9")]
        data = encode(self.PLAN)
        refused = {
            1: b"", 2: data[1:], 3: raw_file(edition=2), 4: raw_file(pipes=b"P"),
            5: raw_file(raw_record(1, [3, 2]), r=1), 6: raw_file(raw_record(1, [1]), r=1),
            7: encode(makers.plan_with_total(8193)),
        }
        for records in ([], self.written(), wrong):
            for number, plan in refused.items():
                for workers, lent in ((2, 32768), (0, 32768), (33, 0)):
                    self.assertEqual(mark(plan, workers, records, lent), ((REFUSED, number), None))
            for workers in (0, 33, 65535):
                for lent in (32768, 32767):
                    self.assertEqual(mark(data, workers, records, lent), ((REFUSED, 8), None))
            for lent in (0, 32767):
                self.assertEqual(mark(data, 2, records, lent), ((REFUSED, 9), None))
        self.assertEqual(mark(data, 2, wrong, 40000)[0], (WRONG, 0, 10))

    def lists(self, seed, many, **sizes):
        """Random plans, limits and lists of choices, refused ones among them."""
        chance = Chance(seed)
        for _ in range(many):
            plan = makers.random_plan(chance, **sizes)
            workers = journal_makers.random_workers(chance)
            most = chance.between(0, 120)
            yield chance, plan, workers, journal_makers.random_choices(chance, plan, workers, most)

    def test_any_choices_pass(self):
        seen = Counter()
        for chance, plan, workers, choices in self.lists(3016, 300):
            records, run = journal_of(plan, workers, choices)
            self.check(records, (COMPLETE if run.ended else SO_FAR,), workers, plan)
            seen["complete" if run.ended else "so far", len(records) < len(choices)] += 1
            # So does every first part; only the whole can be complete.
            if records:
                self.check(records[:chance.below(len(records))], (SO_FAR,), workers, plan)
        self.assertEqual(len(seen), 4)
        self.assertGreater(min(seen.values()), 20)

    def test_damaged(self):
        """Marked wrong exactly if the choices that the records name do not give them."""
        chance = Chance(3017)
        seen = Counter()
        for _ in range(1500):
            plan = makers.random_plan(chance, tokens=8)
            data, workers, done = journal_makers.any_journal(chance, plan)
            records = records_in(data)
            if not 1 <= workers <= MOST_WORKERS:
                self.assertEqual(mark(encode(plan), workers, records)[0], (REFUSED, 8))
                continue
            run, answers = events(plan, workers, [choice_of(record) for record in records])
            given = [answer[0] != REFUSED and record_of(answer) == record
                     for answer, record in zip(answers, records)]
            if all(given):
                verdict = (COMPLETE if run.ended else SO_FAR,)
            else:
                at = given.index(False)
                verdict = (WRONG, at, answers[at][1] if answers[at][0] == REFUSED else 20)
            self.check(records, verdict, workers, plan)
            seen[done] += 1
            seen[verdict[0], verdict[-1]] += 1
        for done in journal_makers.DAMAGES:
            self.assertGreater(seen[done], 10, done)
        for number in (10, 11, 12, 13, 20, 26):
            self.assertGreater(seen[WRONG, number], 15, number)
        self.assertEqual(len(seen), len(journal_makers.DAMAGES) + 8)

    def all_journals(self, plan, workers):
        """Every journal that some choices give, with whether they end the run."""
        found = {(): False}
        runs = [((), Run(plan, workers))]
        while runs:
            before, run = runs.pop()
            for worker in range(workers):
                for line in range(plan.lines):
                    after = copy.deepcopy(run)
                    event = after.choose(worker, line)
                    if event[0] != REFUSED:
                        journal = (*before, record_of(event))
                        found[journal] = after.ended
                        runs.append((journal, after))
        return found

    def test_passes_exactly_if_some_choices_give_it(self):
        wrong = 0
        for plan, workers in (
            (CASES["d"].plan(), 2), (CASES["d"].plan(lines=2), 2), (Plan([True, False], 2, 1), 2),
            (CASES["f"].plan(lines=2), 1), (CASES["c"].plan(), 3), (CASES["d"].plan(), 3),
        ):
            found = self.all_journals(plan, workers)
            data = encode(plan)
            records = sorted({record for journal in found for record in journal})
            for journal, ended in found.items():
                self.assertEqual(mark(data, workers, journal)[0], (COMPLETE if ended else SO_FAR,))
                # With each record that occurs at all as the next one.
                for record in records:
                    longer = (*journal, record)
                    if longer not in found:
                        verdict, _ = mark(data, workers, longer)
                        self.assertEqual(verdict[:2], (WRONG, len(journal)))
                        wrong += 1
        self.assertGreater(wrong, 1000)

    def test_longest(self):
        plan = Plan(makers.big_pipes(), 32, 4096, makers.third_records())
        records, run = journal_of(plan, 1, one_worker_list(plan))
        self.assertTrue(run.ended)
        self.assertEqual(len(records), 131073)
        for journal, verdict in (
            (records, (COMPLETE,)), (records[:-1], (SO_FAR,)), (records + records[:1], (WRONG, 131073, 11)),
        ):
            self.assertEqual(mark(encode(plan), 1, journal)[0], verdict)


class StoredVectors(unittest.TestCase):
    def test_every_number_comes(self):
        entries = refusal_entries()
        text = b"".join(output(plan, what) for plan, kind, what in entries if kind == 0)
        for number in (1, 2, 3, 4, 5, 6, 7, 8, 10, 11, 12, 13, 26):
            self.assertIn(b"R %d\n" % number, text)
        made = [output(plan, made_input(*what)) for plan, kind, what in entries if kind == 1]
        self.assertEqual([text.split(b"\n")[0] for text in made], [b"R 1", b"R 8", b"O", b"R 10"])

    def test_checksum_byte_by_byte(self):
        choices = [(0, 0), (0, 0), (1, 1), (1, 9), (2, 1), (0, 1)]
        data = output(encode(CASES["b"].plan(lines=3)), program_input(2, choices * 9))
        for text in (data, b"", b"E\n", b"no newline"):
            h = 1
            for byte in text:
                h = (h * 65599 + byte) % 4294967291
            self.assertEqual(checksum(text), h)


class TheProgram(unittest.TestCase):
    def test_lines(self):
        data = encode(Plan([True, False], 2, 1))
        self.assertEqual(
            output(data, program_input(1, [(0, line) for line in (0, 0, 5, 0, 1, 0, 1, 1)])),
            b"S 0 0 0 0 0\nF 0 0 0 0 0\nR 10\nS 0 1 0 0 0\nR 13\nF 0 1 0 0 0\nX 1 0\nR 11\nE\n",
        )
        self.assertEqual(output(data, b"\x01"), b"O\n")
        self.assertEqual(output(b"", b""), b"R 1\n")


if __name__ == "__main__":
    unittest.main()
