"""The paper's plans with known orders, cases a to j."""

from dataclasses import dataclass

from plan_file import Plan


@dataclass
class Case:
    tokens: int
    records: list
    order: list
    stays: list

    def plan(self, pipes=(True,), lines=1):
        """Where a row is silent, it has one serial pipe and one line."""
        return Plan(list(pipes), lines, self.tokens, self.records)


CASES = {
    "a": Case(1, [], [0], []),
    "b": Case(
        17,
        [(7, [16]), (12, [6, 7, 16])],
        [0, 1, 2, 3, 4, 5, 6, 8, 9, 10, 11, 13, 14, 15, 16, 7, 12],
        [],
    ),
    "c": Case(0, [], [], []),
    "d": Case(2, [(0, [1])], [1, 0], []),
    "e": Case(2, [(0, [1]), (1, [0])], [], [0, 1]),
    "f": Case(3, [(0, [3])], [1, 2], [0]),
    "g": Case(3, [(0, [2]), (1, [2])], [2, 0, 1], []),
    "h": Case(3, [(0, [1, 2]), (1, [2])], [2, 1, 0], []),
    "i": Case(4, [(0, [3]), (1, [2])], [2, 1, 3, 0], []),
    "j": Case(4, [(1, [0])], [0, 1, 2, 3], []),
}

# Case a is given whole.
CASE_A_FILE = bytes.fromhex("53 00 00 01 00 01 00 01 00 00 00 01 00")
CASE_A_INPUT = bytes.fromhex("01 00 00 00 00 00 00")
CASE_A_OUTPUT = b"S 0 0 0 0 0\nF 0 0 0 0 0\nX 0 0\nE\n"
