"""A run: opening, choices of a worker and a line with their join counters, events and the end.

A choice may be split: an offer, which changes nothing, and the taking of an offered event.
"""

from plan_file import Refused
from tables import Tables

MOST_WORKERS = 32
# The counters lie in one list of 32 x 16, whatever the plan uses of it.
COUNTERS = 512
PIPES_EACH = 16
# How many numbers an opening and a choice must be lent.
LENT = 32768

STARTED = "S"
FINISHED = "F"
STOPPED = "X"
REFUSED = "R"


class Run:
    def __init__(self, plan, workers):
        """Opening; raises Refused(8) for a bad worker limit."""
        if not 1 <= workers <= MOST_WORKERS:
            raise Refused(8)
        self.workers = workers
        self.lines = plan.lines
        self.pipes = len(plan.pipes)
        self.serial = list(plan.pipes)
        self.full = [2 if serial else 1 for serial in plan.pipes]
        self.tables = Tables(plan)

        self.counters = [0] * COUNTERS
        for line in range(self.lines):
            for pipe in range(self.pipes):
                if line == 0 and pipe == 0:
                    value = 0
                elif line == 0 or pipe == 0:
                    value = 1
                else:
                    value = self.full[pipe]
                self.counters[line * PIPES_EACH + pipe] = value

        # For each line: the pipe where it waits or runs, what it carries, and
        # the worker that runs it.
        self.at = [0] * self.lines
        self.running = [False] * self.lines
        self.carries = [None] * self.lines
        self.worker_of = [None] * self.lines
        # For each worker: the line that it runs.
        self.line_of = [None] * workers
        self.running_lines = 0
        self.stopped = False
        self.ended = False

    def refusal(self, worker, line):
        """10 to 13 or 26 if this worker's choice of this line would be refused now, else 0."""
        if line >= self.lines:
            return 10
        if worker >= self.workers:
            return 26
        if self.ended:
            return 11
        if self.running[line]:
            return 0 if self.worker_of[line] == worker else 26
        if self.counters[line * PIPES_EACH + self.at[line]] > 0:
            return 12
        if self.line_of[worker] is not None:
            return 13
        return 0

    def idle(self):
        """The workers that run no line."""
        return [worker for worker in range(self.workers) if self.line_of[worker] is None]

    def practice_worker(self, line):
        """The worker that goes with a line where lines are listed alone.

        The line's own, or the idle one with the smallest number; 0 if none is.
        """
        if line < self.lines and self.running[line]:
            return self.worker_of[line]
        for worker in range(self.workers):
            if self.line_of[worker] is None:
                return worker
        return 0

    def choose(self, worker, line):
        """One choice: its event, or (REFUSED, number) with nothing changed."""
        number = self.refusal(worker, line)
        if number:
            return (REFUSED, number)
        event = self.finish(line) if self.running[line] else self.start(worker, line)
        if self.stopped:
            self.ended = self.has_ended()
        return event

    def offer(self, worker, line):
        """What the choice would answer; nothing changes."""
        number = self.refusal(worker, line)
        if number:
            return (REFUSED, number)
        pipe = self.at[line]
        if not self.running[line] and pipe == 0:
            carried = self.tables.would_take()
            if carried is None:
                return (STOPPED, line, worker)
        else:
            carried = self.carries[line]
        return (FINISHED if self.running[line] else STARTED, line, pipe, *carried, worker)

    def take(self, event, *lent):
        """The choice that made this event, if that is still what the line would do.

        The choice's own refusals come first, then 19 for an event that differs. What a run
        is lent for a choice (rounding.py), it is lent for a taking.
        """
        line, worker = event[1], event[-1]
        offered = self.offer(worker, line, *lent)
        if offered[0] == REFUSED:
            return offered
        if offered != event:
            return (REFUSED, 19)
        return self.choose(worker, line, *lent)

    def start(self, worker, line):
        pipe = self.at[line]
        # Filled at start, so that falls which come before the next start count.
        self.counters[line * PIPES_EACH + pipe] = self.full[pipe]
        if pipe == 0:
            taken = self.tables.take()
            if taken is None:
                self.stopped = True
                return (STOPPED, line, worker)
            self.carries[line] = taken
        self.running[line] = True
        self.running_lines += 1
        self.worker_of[line] = worker
        self.line_of[worker] = line
        token, place = self.carries[line]
        return (STARTED, line, pipe, token, place, worker)

    def finish(self, line):
        pipe = self.at[line]
        token, place = self.carries[line]
        if pipe == 0:
            self.tables.finish(token)
        if self.serial[pipe]:
            self.fall((line + 1) % self.lines, pipe)
        next_pipe = (pipe + 1) % self.pipes
        self.fall(line, next_pipe)
        self.at[line] = next_pipe
        self.running[line] = False
        self.running_lines -= 1
        worker = self.worker_of[line]
        self.worker_of[line] = None
        self.line_of[worker] = None
        # A line back at pipe 0 carries nothing any more.
        if next_pipe == 0:
            self.carries[line] = None
        return (FINISHED, line, pipe, token, place, worker)

    def fall(self, line, pipe):
        at = line * PIPES_EACH + pipe
        # No run takes a counter below 0; we would rather fail than go on.
        assert self.counters[at] > 0
        self.counters[at] -= 1

    def has_ended(self):
        """Marked stopped, no line runs and no waiting line has counter 0."""
        if not self.stopped or self.running_lines:
            return False
        return all(
            self.counters[line * PIPES_EACH + self.at[line]] > 0 for line in range(self.lines)
        )

    def state(self):
        """All that the run holds but W, to compare the ends of runs."""
        return (
            tuple(self.counters),
            tuple(self.at),
            tuple(self.running),
            tuple(self.carries),
            tuple(self.worker_of),
            self.stopped,
            self.ended,
            self.tables.state(),
        )
