"""The rounding paper, sentence by sentence: request 2.2."""

import copy
import sys
import unittest
from collections import Counter
from dataclasses import astuple
from itertools import combinations, product
from pathlib import Path

HERE = Path(__file__).resolve().parent
sys.path.insert(0, str(HERE))

import makers
from cases import CASES
from cell_makers import random_cells
from chance import Chance
from makers import one_worker_list
from plan_file import Plan, Refused
from rounding import (
    BASES,
    LARGEST_CELL,
    LARGEST_SUM,
    RoundedRun,
    Rounding,
    open_rounded,
    published,
    rise,
    sheet_figures,
)
from run import FINISHED, LENT, MOST_WORKERS, REFUSED, STARTED, STOPPED, Run
from sheet import plain_sheet


def serial_pipes(plan):
    return [pipe for pipe, serial in enumerate(plan.pipes) if serial]


def refusal_of(opening, *numbers):
    """The number that an opening is refused with, or 0."""
    try:
        opening(*numbers)
    except Refused as refused:
        return refused.number
    return 0


def rounded(plan, workers, pipe, base, cells, choices):
    """A run with the same cells throughout and the figures handed on as left, with its answers."""
    figures = [7] * plan.tokens
    run = open_rounded(plan, workers, pipe, base, cells, figures)
    answers = [run.choose(*choice, cells, figures) for choice in choices]
    return run, answers, figures


def base_run(plan, workers, choices):
    run = Run(plan, workers)
    return run, [run.choose(*choice) for choice in choices]


def kind(answer):
    return answer[1] if answer[0] == REFUSED else answer[0]


class PublishedSums(unittest.TestCase):
    def test_twenty_cells(self):
        # Each by itself rounds to 0; passed one after the other they publish their total.
        self.assertEqual(published(5, 2), 0)
        figures, total = [], 0
        for _ in range(20):
            figures.append(rise(5, total, 2))
            total += 2
        self.assertEqual(figures, [0, 5, 0, 5, 0] * 4)
        self.assertEqual((total, sum(figures)), (40, 40))
        for lines, workers in ((1, 1), (3, 2), (20, 32)):
            plan = Plan([True, True], lines, 20)
            for pipe in (0, 1):
                run, _, figures = rounded(plan, workers, pipe, 5, [2] * 20, one_worker_list(plan))
                self.assertTrue(run.ended)
                self.assertEqual(figures, [0, 5, 0, 5, 0] * 4)
                self.assertEqual((run.rounding, sum(figures)), (Rounding(pipe, 5, 40), 40))

    def test_by_hand(self):
        for base, sums in (
            (3, [0, 0, 3, 3, 3, 6, 6, 6, 9, 9, 9, 12, 12]),
            (5, [0, 0, 0, 5, 5, 5, 5, 5, 10, 10, 10, 10, 10]),
        ):
            self.assertEqual([published(base, total) for total in range(13)], sums)
        self.assertEqual(published(3, 4_096_000_000), 4_095_999_999)
        self.assertEqual(published(5, 4_096_000_000), 4_096_000_000)
        self.assertEqual(published(5, 4_095_999_997), 4_095_999_995)
        self.assertEqual(published(5, 4_095_999_998), 4_096_000_000)

    def totals(self):
        """Sums of all remainders, near 0 and near each power of two and limit."""
        yield from range(400)
        for near in (2**16, 2**31, 2**32 - 2**20, LARGEST_CELL, LARGEST_SUM - 10):
            yield from range(near - 20, near + 11)

    def test_sums_are_near(self):
        for base, total in product(BASES, self.totals()):
            there = published(base, total)
            self.assertEqual(there % base, 0)
            self.assertLessEqual(abs(there - total), (base - 1) // 2)

    def test_cells_are_near(self):
        cells = [*range(25), 2**16, LARGEST_CELL - 1, LARGEST_CELL]
        for base in BASES:
            apart = set()
            for total, cell in product(self.totals(), cells):
                figure = rise(base, total, cell)
                self.assertGreaterEqual(figure, 0)
                self.assertEqual(figure % base, 0)
                apart.add(figure - cell)
            # As far as b - 1 either way, and no further.
            self.assertEqual(apart, set(range(1 - base, base)))


class Openings(unittest.TestCase):
    PLAN = CASES["h"].plan([True, False, True], 2)
    CELLS = [4, 5, 6]

    def check(self, number, workers=2, pipe=2, base=5, cells=None, figures=None, lent=LENT, plan=None):
        """The refusal, or 0; a refused opening writes nothing, an accepted one clears the figures."""
        plan = plan or self.PLAN
        cells = list(self.CELLS if cells is None else cells)
        figures = [9] * plan.tokens if figures is None else figures
        before = list(cells), list(figures)
        there = refusal_of(open_rounded, plan, workers, pipe, base, cells, figures, lent)
        self.assertEqual(there, number)
        self.assertEqual((cells, figures), before if number else (before[0], [0] * plan.tokens))

    def test_state(self):
        figures = [1, 2, 3]
        run = open_rounded(self.PLAN, 2, 2, 5, self.CELLS, figures)
        self.assertEqual((run.rounding, figures), (Rounding(2, 5, 0), [0, 0, 0]))
        # The rest is as it is without rounding, where all three are 0.
        without = RoundedRun(self.PLAN, 2)
        self.assertEqual(without.rounding, Rounding(0, 0, 0))
        for opened in (run, without):
            self.assertEqual(Run.state(opened), Run(self.PLAN, 2).state())

    def test_order_of_checks(self):
        """Every combination of good and bad: the first number in the order counts."""
        bad = {
            8: ("workers", (0, 33)), 9: ("lent", (0, LENT - 1)), 16: ("pipe", (1, 3, 65535)), 17: ("base", (0, 4)),
            18: ("cells", ([4, 5], [4, 5, LARGEST_CELL + 1])),
        }
        for many in range(len(bad) + 1):
            for numbers in combinations(bad, many):
                names = [bad[number][0] for number in numbers]
                for values in product(*(bad[number][1] for number in numbers)):
                    self.check(min(numbers, default=0), **dict(zip(names, values)))
        # The plan's own come first; a plan is read before a run is opened.
        self.assertEqual(min(bad), 8)

    def test_pipes(self):
        plan = Plan([True, False, True, False], 2, 3)
        for pipe, number in ((0, 0), (1, 16), (2, 0), (3, 16), (4, 16), (15, 16), (16, 16), (256, 16), (65535, 16)):
            self.check(number, pipe=pipe, plan=plan)
        for pipe in range(17):
            self.check(16 if pipe == 16 else 0, pipe=pipe, plan=Plan([True] * 16, 1, 3))
            self.check(0 if pipe == 0 else 16, pipe=pipe, plan=Plan([True] + [False] * 15, 1, 3))

    def test_bases(self):
        for base in [*range(20), 255, 256, 259, 261, 65535]:
            self.check(0 if base in (3, 5) else 17, base=base)

    def test_cells(self):
        for at in range(3):
            for cell, number in ((0, 0), (999_999, 0), (1_000_000, 0), (1_000_001, 18), (2**31, 18), (2**32 - 1, 18)):
                cells = list(self.CELLS)
                cells[at] = cell
                self.check(number, cells=cells)

    def test_how_many(self):
        for tokens in (0, 1, 2, 3, 31, 4095, 4096):
            plan = Plan([True], 1, tokens)
            for cells, figures in product((tokens - 1, tokens, tokens + 1), repeat=2):
                if min(cells, figures) >= 0:
                    number = 0 if cells == figures == tokens else 18
                    self.check(number, pipe=0, plan=plan, cells=[1] * cells, figures=[9] * figures)
        # None of either fits a plan without tokens.
        self.check(0, pipe=0, plan=CASES["c"].plan(), cells=[], figures=[])
        self.check(18, cells=[], figures=[])


class Choices(unittest.TestCase):
    def whole(self, run, figures):
        return run.state(), tuple(run.line_of), run.workers, tuple(figures)

    def check(self, run, choice, expected, cells=(), figures=(), event=None):
        """Choice, offer and taking say the same; a refusal changes nothing, and an offer never does.

        The taking is that of the event that is offered, or of this one.
        """
        before = self.whole(run, figures)
        there = list(figures)
        self.assertEqual(run.offer(*choice, cells, there), expected)
        self.assertEqual(self.whole(run, there), before)
        chosen, by_choice = copy.deepcopy(run), list(figures)
        self.assertEqual(chosen.choose(*choice, cells, by_choice), expected)
        taken, by_taking = copy.deepcopy(run), list(figures)
        event = event or (expected if expected[0] != REFUSED else (STOPPED, choice[1], choice[0]))
        self.assertEqual(taken.take(event, cells, by_taking), expected)
        self.assertEqual(self.whole(taken, by_taking), self.whole(chosen, by_choice))
        if expected[0] == REFUSED:
            self.assertEqual(self.whole(chosen, by_choice), before)
        return chosen, by_choice

    def test_a_cell_passes_at_the_finish(self):
        # Two lines, pipes serial, parallel and serial; the last one rounds.
        plan = Plan([True, False, True], 2, 2)
        cells, figures = [2, 4], [8, 8]
        run = open_rounded(plan, 2, 2, 5, cells, figures)
        passed = []
        for choice in one_worker_list(plan):
            event = run.choose(*choice, cells, figures)
            if event[:3:2] == (FINISHED, 2):
                passed.append(event[3])
            self.assertEqual(run.rounding.sum, sum(cells[token] for token in passed))
            self.assertEqual(figures, [[0, 0], [0, 0], [0, 5]][len(passed)])
        self.assertEqual(passed, [0, 1])

    def test_one_figure_is_written(self):
        # Whatever the others hold, and whatever other cells are lent now.
        plan = CASES["h"].plan([True, True], 2)
        run = open_rounded(plan, 1, 1, 3, [1, 1, 1], [0, 0, 0])
        lent = ([5, 5, 5], [9, 9, 4], [1_000_000, 0, 0])
        figures = [11, 12, 13]
        there = []
        for place, cells in enumerate(lent):
            for _ in range(4):
                run.choose(0, place % 2, cells, figures)
            there.append((list(figures), run.rounding.sum))
        # The sheet is 2, 1, 0: T is 5, then 14, then 1,000,014.
        self.assertEqual(there, [
            ([11, 12, 6], 5), ([11, 9, 6], 14), ([999_999, 9, 6], 1_000_014),
        ])

    def test_18_comes_after_a_choices_own_numbers(self):
        plan = Plan([True, True], 2, 1)
        run = open_rounded(plan, 2, 1, 5, [3], [0])
        unfit = [((), ()), ([3], ()), ((), [0]), ([3, 3], [0]), ([3], [0, 0]), ([3, 3], [0, 0]), ([1_000_001], [0])]

        def check(*steps):
            """Each step is a choice and its number; 0 where only what is lent can be wrong."""
            for worker, line, number in steps:
                for cells, figures in unfit:
                    self.check(run, (worker, line), (REFUSED, number or 18), cells, figures)
                if number:
                    self.check(run, (worker, line), (REFUSED, number), [3], [0])

        check((0, 2, 10), (2, 2, 10), (2, 0, 26), (0, 1, 12), (0, 0, 0), (1, 0, 0))
        run.choose(1, 0, [3], [0])
        check((0, 0, 26), (2, 0, 26), (1, 1, 12), (1, 0, 0))
        run.choose(1, 0, [3], [0])
        run.choose(1, 0, [3], [0])
        # Line 1 would stop; line 0 would pass its cell.
        check((1, 1, 13), (0, 1, 0), (1, 0, 0), (0, 0, 26))
        run.choose(0, 1, [3], [0])
        run.choose(1, 0, [3], [0])
        self.assertTrue(run.ended)
        check((0, 0, 11), (1, 1, 11), (2, 0, 26), (0, 2, 10))

    def test_18_comes_before_19(self):
        plan = Plan([True], 1, 2)
        run = open_rounded(plan, 1, 0, 5, [1, 1], [0, 0])
        other = (STARTED, 0, 0, 1, 0, 0)
        self.assertEqual(run.take(other, [1, 1], [0, 0]), (REFUSED, 19))
        for cells, figures in (((), ()), ([1], [0]), ([1, 1], [0]), ([1, 1_000_001], [0, 0])):
            self.check(run, (0, 0), (REFUSED, 18), cells, figures, other)
            self.check(run, (0, 0), (REFUSED, 18), cells, figures, (STARTED, 0, 0, 0, 0, 0))
        self.assertEqual(run.take((STARTED, 0, 0, 0, 0, 0), [1, 1], [0, 0]), (STARTED, 0, 0, 0, 0, 0))

    def test_one_more_and_one_less(self):
        for tokens in (0, 1, 2, 17, 4096):
            plan = Plan([True], 1, tokens)
            run = open_rounded(plan, 1, 0, 5, [1] * tokens, [0] * tokens)
            event = (STARTED, 0, 0, 0, 0, 0) if tokens else (STOPPED, 0, 0)
            for cells, figures in product((tokens - 1, tokens, tokens + 1), repeat=2):
                if min(cells, figures) >= 0:
                    expected = event if cells == figures == tokens else (REFUSED, 18)
                    self.check(run, (0, 0), expected, [1] * cells, [0] * figures)
            # To lend neither is to lend none of each.
            self.assertEqual(run.offer(0, 0), event if tokens == 0 else (REFUSED, 18))

    def test_a_cell_too_large(self):
        for at in range(5):
            for cell, fit in ((1_000_000, True), (1_000_001, False), (2**32 - 1, False)):
                cells = [1] * 5
                cells[at] = cell
                run = open_rounded(Plan([True, True], 2, 5), 1, 1, 5, [1] * 5, [0] * 5)
                # Whether its token is the one that runs or not, at every pipe, start and finish.
                for choice in one_worker_list(Plan([True, True], 2, 2)):
                    event = run.offer(*choice, [1] * 5, [0] * 5)
                    self.check(run, choice, event if fit else (REFUSED, 18), cells, [0] * 5)
                    run.choose(*choice, [1] * 5, [0] * 5)

    def test_without_rounding_none_are_lent(self):
        for plan in (CASES["h"].plan([True, False], 2), CASES["c"].plan()):
            n = plan.tokens
            run = RoundedRun(plan, 1)
            for choice in one_worker_list(plan):
                event = run.offer(*choice)
                self.assertNotEqual(event[0], REFUSED)
                for cells, figures in product(({0, 1, n}), repeat=2):
                    expected = (REFUSED, 18) if cells or figures else event
                    self.check(run, choice, expected, [1] * cells, [0] * figures)
                self.check(run, choice, (REFUSED, 18), [1_000_001], ())
                run.choose(*choice)
            self.assertTrue(run.ended)
            self.assertEqual(run.rounding, Rounding(0, 0, 0))
            self.check(run, (0, 0), (REFUSED, 11), [1], [0])

    def test_sum_past_its_limit(self):
        # A state that was handed back with another sum.
        plan = Plan([True, True], 2, 2)
        run = open_rounded(plan, 2, 1, 5, [7, 7], [0, 0])
        for choice in ((0, 0), (0, 0), (0, 0)):
            run.choose(*choice, [7, 7], [0, 0])
        event = (FINISHED, 0, 1, 0, 0, 0)
        for total, cell, fit in (
            (LARGEST_SUM, 0, True), (LARGEST_SUM, 1, False), (LARGEST_SUM - 7, 7, True), (LARGEST_SUM - 6, 7, False),
            (LARGEST_SUM - 1_000_000, 1_000_000, True), (LARGEST_SUM - 999_999, 1_000_000, False),
        ):
            run.rounding = Rounding(1, 5, total)
            cells = [cell, 1_000_000]
            if not fit:
                # Before 19, and after 18 and a choice's own numbers.
                self.check(run, (0, 0), (REFUSED, 14), cells, [3, 3])
                self.check(run, (0, 0), (REFUSED, 14), cells, [3, 3], event)
                self.check(run, (0, 0), (REFUSED, 18), cells, [3])
                self.check(run, (0, 0), (REFUSED, 18), [cell, 1_000_001], [3, 3])
                self.check(run, (1, 0), (REFUSED, 26), cells, [3, 3])
            else:
                after, figures = self.check(run, (0, 0), event, cells, [3, 3])
                self.assertEqual(figures, [rise(5, total, cell), 3])
                self.assertEqual(after.rounding, Rounding(1, 5, total + cell))
            # No cell passes on the other line, be its cell what it may.
            self.check(run, (1, 1), (STARTED, 1, 0, 1, 1, 1), cells, [3, 3])

    def test_spoiled_rounding(self):
        plan = Plan([True, False, True], 2, 1)
        for numbers, well in (
            ((0, 0, 0), True), ((0, 3, 0), True), ((2, 5, LARGEST_SUM), True), ((0, 3, LARGEST_SUM), True),
            ((0, 0, 1), False), ((1, 0, 0), False), ((2, 0, 0), False), ((2, 0, 5), False),
            ((0, 0, LARGEST_SUM), False),
            ((0, 1, 0), False), ((0, 4, 0), False), ((2, 6, 0), False), ((0, 65535, 0), False), ((0, 259, 0), False),
            ((1, 3, 0), False), ((3, 3, 0), False), ((16, 5, 0), False), ((65535, 5, 0), False), ((256, 5, 0), False),
            ((0, 3, LARGEST_SUM + 1), False), ((2, 5, LARGEST_SUM + 1), False), ((2, 5, 2**32 - 1), False),
        ):
            run = open_rounded(plan, 1, 2, 5, [1], [0])
            run.rounding = Rounding(*numbers)
            with self.subTest(numbers=numbers):
                self.assertEqual(run.in_range(), well)
                lent = ([1], [0]) if numbers[1] else ((), ())
                for choice, own in (((0, 0), 0), ((0, 2), 10), ((1, 0), 26), ((0, 1), 12)):
                    # With the other ranges: before all of a choice's own numbers.
                    event = (REFUSED, own) if own else (STARTED, 0, 0, 0, 0, 0)
                    self.check(run, choice, event if well else (REFUSED, 14), *lent)
                    if not well:
                        self.check(run, choice, (REFUSED, 14), [1, 2], ())

    def test_offers_and_takings_are_the_choice(self):
        chance = Chance(3021)
        seen = Counter()
        for _ in range(60):
            plan = makers.random_plan(chance, pipes=3, lines=4, tokens=8)
            workers = chance.pick([1, 2, 3, 32])
            pipe, base = chance.pick(serial_pipes(plan)), chance.pick(BASES)
            cells, figures = random_cells(chance, plan.tokens), [0] * plan.tokens
            run = open_rounded(plan, workers, pipe, base, cells, figures)
            by_taking, other = copy.deepcopy(run), list(figures)
            for choice in makers.allowed_list(chance, plan, workers, 150, strays=6):
                event = by_taking.offer(*choice, cells, other)
                if event[0] != REFUSED:
                    wrong = (*event[:-2], event[-2] + 1, event[-1])
                    self.assertNotEqual(by_taking.take(wrong, cells, other)[0], event[0])
                    self.assertEqual(by_taking.take(event, cells, other), event)
                self.assertEqual(run.choose(*choice, cells, figures), event)
                self.assertEqual(self.whole(run, figures), self.whole(by_taking, other))
                seen[kind(event)] += 1
        self.assertEqual(set(seen), {STARTED, FINISHED, STOPPED, 10, 11, 12, 13, 26})


class WholeRuns(unittest.TestCase):
    """Demand 3 with rounding, on random plans."""

    def tried(self, seed, many, **sizes):
        """Random plans, each with a serial pipe, a base and cells."""
        chance = Chance(seed)
        for _ in range(many):
            plan = makers.random_plan(chance, **sizes)
            pipe, base = chance.pick(serial_pipes(plan)), chance.pick(BASES)
            yield chance, plan, pipe, base, random_cells(chance, plan.tokens)

    def lists(self, chance, plan):
        """W and choices, several of each, all but the last to the run's end."""
        yield 1, one_worker_list(plan)
        for workers in (chance.between(1, 4), MOST_WORKERS):
            yield workers, makers.allowed_list(chance, plan, workers, 3000, strays=chance.pick([0, 4]))
        yield 2, makers.random_list(chance, plan, 2, 40, past=2)

    def check_run(self, plan, workers, pipe, base, cells, choices):
        """One run step by step, beside the base run; its figures, or None if it has not ended."""
        sheet = plain_sheet(plan)
        figures = [5] * plan.tokens
        run, beside = open_rounded(plan, workers, pipe, base, cells, figures), Run(plan, workers)
        passed = []
        for choice in choices:
            event = run.choose(*choice, cells, figures)
            # With fit cells nothing gets 14 or 18, and all else is as without rounding.
            self.assertEqual(event, beside.choose(*choice))
            if event[:3:2] == (FINISHED, pipe):
                passed.append(event[3])
                self.assertEqual(passed, sheet.order[:len(passed)])
                true, there = sum(cells[token] for token in passed), sum(figures)
                self.assertEqual((run.rounding.sum, there), (true, published(base, true)))
                self.assertLessEqual(abs(true - there), (base - 1) // 2)
                self.assertLess(abs(figures[event[3]] - cells[event[3]]), base)
            self.assertTrue(all(figures[token] == 0 for token in set(range(plan.tokens)) - set(passed)))
        self.assertEqual(astuple(run.rounding)[:2], (pipe, base))
        self.assertEqual(Run.state(run), beside.state())
        self.assertEqual(run.line_of, beside.line_of)
        if not run.ended:
            return None
        self.assertEqual(passed, sheet.order)
        self.assertEqual([figures[token] for token in sheet.stays], [0] * len(sheet.stays))
        self.assertEqual(sum(figures), published(base, sum(cells[token] for token in sheet.order)))
        return figures

    def test_same_figures(self):
        ended, kept = 0, 0
        for chance, plan, pipe, base, cells in self.tried(3022, 120, pipes=3, lines=4, tokens=10):
            wanted = sheet_figures(plan, base, cells)
            kept += bool(plain_sheet(plan).stays)
            for workers, choices in self.lists(chance, plan):
                figures = self.check_run(plan, workers, pipe, base, cells, choices)
                if figures is not None:
                    self.assertEqual(figures, wanted)
                    ended += 1
        self.assertGreaterEqual(ended, 360)
        self.assertGreater(kept, 15)

    def test_on_many_lines(self):
        for chance, plan, pipe, base, cells in self.tried(3023, 6, pipes=16, lines=32, tokens=40):
            for workers, choices in list(self.lists(chance, plan))[:3]:
                figures = self.check_run(plan, workers, pipe, base, cells, choices)
                self.assertEqual(figures, sheet_figures(plan, base, cells))

    def test_end_states(self):
        """Runs that differ in rounding or cells share the end state but for pipe, base and T."""
        for chance, plan, _, _, _ in self.tried(3024, 60, pipes=3, lines=4, tokens=8):
            run = RoundedRun(plan, 3)
            for choice in makers.allowed_list(chance, plan, 3, 2000):
                run.choose(*choice)
            ends = [Run.state(run)]
            for pipe, base in product(serial_pipes(plan), BASES):
                workers = chance.between(1, 5)
                choices = makers.allowed_list(chance, plan, workers, 2000)
                run, _, _ = rounded(plan, workers, pipe, base, random_cells(chance, plan.tokens), choices)
                self.assertTrue(run.ended)
                ends.append(Run.state(run))
            self.assertEqual(ends, ends[:1] * len(ends))

    def any_lending(self, chance, many):
        """Cells and figures as they should be or not, others each time, and whether they are."""
        cells, figures = random_cells(chance, many), [chance.below(99) for _ in range(many)]
        manner = chance.below(12)
        if manner == 0:
            return (), (), many == 0
        if manner == 1:
            return cells + [0], figures, False
        if manner == 2:
            return cells, figures + [0], False
        if manner == 3 and many:
            cells[chance.below(many)] += LARGEST_CELL + 1
            return cells, figures, False
        return cells, figures, True

    def test_whatever_is_lent(self):
        """The rest of the state is that of the base run over the choices that were accepted."""
        seen = Counter()
        for chance, plan, pipe, base, cells in self.tried(3025, 200, pipes=3, lines=4, tokens=8):
            workers = chance.between(1, 3)
            run = open_rounded(plan, workers, pipe, base, cells, list(cells))
            beside, total = Run(plan, workers), 0
            for choice in makers.allowed_list(chance, plan, workers, 200, strays=4):
                cells, figures, fit = self.any_lending(chance, plan.tokens)
                own = beside.refusal(*choice)
                before, left = run.state(), list(figures)
                event = run.choose(*choice, cells, figures)
                seen[kind(event)] += 1
                if own or not fit:
                    self.assertEqual(event, (REFUSED, own or 18))
                    self.assertEqual((run.state(), list(figures)), (before, left))
                    continue
                self.assertEqual(event, beside.choose(*choice))
                if event[:3:2] == (FINISHED, pipe):
                    token = event[3]
                    left[token] = rise(base, total, cells[token])
                    total += cells[token]
                self.assertEqual((figures, run.rounding), (left, Rounding(pipe, base, total)))
                self.assertEqual(Run.state(run), beside.state())
        self.assertEqual(set(seen), {STARTED, FINISHED, STOPPED, 10, 11, 12, 13, 18, 26})

    def test_largest_sum(self):
        # T comes to its limit and nothing is refused; 16-bit, 31-bit and 32-bit numbers would not do.
        tokens = 4096
        for base, lines, records in ((5, 1, []), (3, 32, makers.third_records())):
            plan = Plan([True], lines, tokens, records)
            cells = [LARGEST_CELL] * tokens
            run, answers, figures = rounded(plan, 1, 0, base, cells, one_worker_list(plan))
            self.assertEqual({event[0] for event in answers}, {STARTED, FINISHED, STOPPED})
            self.assertTrue(run.ended)
            self.assertEqual(run.rounding, Rounding(0, base, LARGEST_SUM))
            self.assertEqual(sum(figures), published(base, LARGEST_SUM))
            self.assertEqual(figures, sheet_figures(plan, base, cells))
            # One past it, the state is none of a run.
            self.assertEqual(run.choose(0, 0, cells, figures), (REFUSED, 11))
            run.rounding.sum += 1
            self.assertEqual(run.choose(0, 0, cells, figures), (REFUSED, 14))


class MoreWorkers(unittest.TestCase):
    """Request 2.12 with rounding."""

    tried = WholeRuns.tried

    def test_reuse(self):
        for chance, plan, pipe, base, cells in self.tried(3026, 60, pipes=3, lines=5, tokens=8):
            workers = chance.pick([1, 2, 3, 31])
            choices = makers.allowed_list(chance, plan, workers, chance.between(1, 150), strays=5)
            run, answers, figures = rounded(plan, workers, pipe, base, cells, choices)
            accepted = [choice for choice, event in zip(choices, answers) if event[0] != REFUSED]
            happened = [event for event in answers if event[0] != REFUSED]
            for larger in (workers, workers + 1, MOST_WORKERS):
                again, there, left = rounded(plan, larger, pipe, base, cells, accepted)
                self.assertEqual((there, left), (happened, figures))
                self.assertEqual(again.state(), run.state())

    def at_work(self, run, pipe):
        """The lines that run a pipe or may start it."""
        return [
            line for line in range(run.lines)
            if run.at[line] == pipe and (run.running[line] or run.refusal(run.practice_worker(line), line) != 12)
        ]

    def after(self, run, choices, cells, figures):
        """The answer to each choice, the run and figures they leave; what is given stays as it is."""
        run, figures = copy.deepcopy(run), list(figures)
        answers = {choice: run.choose(*choice, cells, figures) for choice in choices}
        return answers, run.state(), run.line_of, figures

    def test_swap(self):
        compared = Counter()
        for chance, plan, pipe, base, cells in self.tried(3027, 50, pipes=3, lines=5, tokens=8):
            workers = chance.between(2, 4)
            figures = [0] * plan.tokens
            run = open_rounded(plan, workers, pipe, base, cells, figures)
            for choice in makers.allowed_list(chance, plan, workers, 60):
                # Two lines are never at work at one serial pipe.
                if not run.ended:
                    for serial in serial_pipes(plan):
                        self.assertLess(len(self.at_work(run, serial)), 2)
                allowed = [
                    (worker, line) for line in range(run.lines) for worker in range(workers)
                    if not run.refusal(worker, line)
                ]
                for pair in combinations(allowed, 2):
                    if pair[0][1] == pair[1][1]:
                        continue
                    ahead = self.after(run, pair, cells, figures)
                    back = self.after(run, pair[::-1], cells, figures)
                    if any(event[0] == REFUSED for event in (*ahead[0].values(), *back[0].values())):
                        continue
                    self.assertEqual(ahead, back)
                    passing = any(event[:3:2] == (FINISHED, pipe) for event in ahead[0].values())
                    compared[passing] += 1
                run.choose(*choice, cells, figures)
        self.assertGreater(compared[True], 200)
        self.assertGreater(compared[False], 1000)


if __name__ == "__main__":
    unittest.main()
