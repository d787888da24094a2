"""Rounding: one serial pipe rounds each token's cell, so that published sums stay near the true ones.

Cells and figures are lent to the opening and to every choice; the figures are a list that
is changed in place.
"""

from dataclasses import astuple, dataclass

from plan_file import Refused
from run import FINISHED, LENT, REFUSED, Run
from sheet import plain_sheet

BASES = (3, 5)
LARGEST_CELL = 1_000_000
LARGEST_SUM = 4_096_000_000
SPOILED = 14
BAD_PIPE = 16
BAD_BASE = 17
BAD_LENT = 18


def published(base, total):
    """The published sum for a true one."""
    return base * ((total + (base - 1) // 2) // base)


def rise(base, total, cell):
    """What a cell publishes that passes after this true sum."""
    return published(base, total + cell) - published(base, total)


def fits(tokens, cells, figures):
    """So many cells and figures, and no cell too large."""
    return len(cells) == tokens and len(figures) == tokens and max(cells, default=0) <= LARGEST_CELL


@dataclass
class Rounding:
    """What it adds to the state; all 0 in a run without it."""

    pipe: int = 0
    base: int = 0
    sum: int = 0  # of the cells that have passed


class RoundedRun(Run):
    """A run whose choices are lent cells and figures; as it is opened here, one without rounding."""

    def __init__(self, plan, workers):
        super().__init__(plan, workers)
        self.rounding = Rounding()

    def in_range(self):
        """False for numbers of rounding that no run has, in a state that was handed back."""
        pipe, base, total = self.rounding.pipe, self.rounding.base, self.rounding.sum
        if base == 0:
            return pipe == 0 and total == 0
        serial = pipe < self.pipes and self.serial[pipe]
        return serial and base in BASES and total <= LARGEST_SUM

    def passes(self, event):
        """Whether a cell passes with this event."""
        return self.rounding.base > 0 and event[0] == FINISHED and event[2] == self.rounding.pipe

    def offer(self, worker, line, cells=(), figures=()):
        """After all that a choice refuses by itself, 18; then 14 for a sum past its limit."""
        if not self.in_range():
            return (REFUSED, SPOILED)
        event = super().offer(worker, line)
        if event[0] == REFUSED:
            return event
        if not fits(self.tables.tokens if self.rounding.base else 0, cells, figures):
            return (REFUSED, BAD_LENT)
        if self.passes(event) and self.rounding.sum + cells[event[3]] > LARGEST_SUM:
            return (REFUSED, SPOILED)
        return event

    def choose(self, worker, line, cells=(), figures=()):
        """A refusal changes nothing, the figures neither."""
        offered = self.offer(worker, line, cells, figures)
        if offered[0] == REFUSED:
            return offered
        event = super().choose(worker, line)
        if self.passes(event):
            token = event[3]
            figures[token] = rise(self.rounding.base, self.rounding.sum, cells[token])
            self.rounding.sum += cells[token]
        return event

    def state(self):
        return (*super().state(), astuple(self.rounding))


def open_rounded(plan, workers, pipe, base, cells, figures, lent=LENT):
    """An opening with rounding, which clears the figures.

    Raises Refused with 8, 9 or 16 to 18; then nothing is written.
    """
    run = RoundedRun(plan, workers)
    if lent < LENT:
        raise Refused(9)
    if pipe >= run.pipes or not run.serial[pipe]:
        raise Refused(BAD_PIPE)
    if base not in BASES:
        raise Refused(BAD_BASE)
    if not fits(plan.tokens, cells, figures):
        raise Refused(BAD_LENT)
    run.rounding = Rounding(pipe, base)
    figures[:] = [0] * plan.tokens
    return run


def sheet_figures(plan, base, cells):
    """Each token's figure, by the plain sheet alone: tokens pass a serial pipe in its order."""
    figures = [0] * plan.tokens
    total = 0
    for token in plain_sheet(plan).order:
        figures[token] = rise(base, total, cells[token])
        total += cells[token]
    return figures
