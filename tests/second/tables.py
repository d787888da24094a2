"""Taking tokens: Count, the ready queue, the deferred table and its waiters."""

from collections import deque


class Tables:
    def __init__(self, plan):
        self.tokens = plan.tokens
        self.record = [[] for _ in range(plan.tokens)]
        for token, numbers in plan.records:
            self.record[token] = list(numbers)

        # How many tokens were ever taken as new.
        self.count = 0
        # How many tokens were ordered, which is the next place.
        self.placed = 0
        self.ready = deque()
        # For each token: the numbers it is still deferred on, or None when it
        # is not in the deferred table.
        self.deferred = [None] * plan.tokens
        # For each number that is waited for: its waiters in the order entered.
        # Numbers that never enter have waiters too, so this goes by number.
        self.waiters = {}

    def is_due(self, number):
        """Rule 1. A number below Count is also below N."""
        return number >= self.count or self.deferred[number] is not None

    def take(self):
        """What a line at pipe 0 does: the ordered token and its place, or None."""
        while True:
            if self.ready:
                return self.order(self.ready.popleft())
            if self.count >= self.tokens:
                return None
            token = self.count
            self.count += 1
            due = [number for number in self.record[token] if self.is_due(number)]
            if not due:
                return self.order(token)
            # Rule 2; the line then takes again.
            self.deferred[token] = due
            for number in due:
                self.waiters.setdefault(number, []).append(token)

    def would_take(self):
        """What `take` would give now; nothing changes."""
        if self.ready:
            return self.ready[0], self.placed
        for token in range(self.count, self.tokens):
            # Count as it is now will do for rule 1: a number from there on is not
            # yet taken or was deferred by this very taking, so it is due either way.
            if not any(self.is_due(number) for number in self.record[token]):
                return token, self.placed
        return None

    def order(self, token):
        """Rule 3."""
        place = self.placed
        self.placed += 1
        return token, place

    def finish(self, token):
        """Rule 4, when the token finishes pipe 0."""
        for waiter in self.waiters.pop(token, ()):
            left = self.deferred[waiter]
            left.remove(token)
            if not left:
                self.deferred[waiter] = None
                self.ready.append(waiter)

    def still_deferred(self):
        """The tokens in the deferred table, ascending."""
        return [token for token, due in enumerate(self.deferred) if due is not None]

    def state(self):
        """All that the tables hold, to compare the ends of runs."""
        return (
            self.count,
            self.placed,
            tuple(self.ready),
            tuple(None if due is None else tuple(due) for due in self.deferred),
            tuple(sorted((number, tuple(names)) for number, names in self.waiters.items())),
        )
