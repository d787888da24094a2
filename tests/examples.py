"""The examples: plans, worker orders with what the program prints on them, journals, and cells with commands.

--write makes them anew with the second implementation, --check fails if a stored one differs,
--run PROGRAM runs the program on each worker order and compares. tests/console.py has the
console mark the journals and answer the commands.
"""

import os
import subprocess
import sys
import tempfile

HERE = os.path.dirname(os.path.abspath(__file__))
ROOT = os.path.dirname(HERE)
FOLDER = os.path.join(ROOT, "examples")
sys.path.insert(0, os.path.join(HERE, "second"))

from console import cells_bytes, console_output  # noqa: E402
from journal import COMPLETE, WRONG, journal_bytes, journal_of, mark  # noqa: E402
from plan_file import Plan, encode, read  # noqa: E402
from makers import by_practice, one_worker_list, program_input  # noqa: E402
from program import output  # noqa: E402
from rounding import published, sheet_figures  # noqa: E402
from run import Run  # noqa: E402
from sheet import plain_sheet  # noqa: E402

SERIAL, PARALLEL = True, False

PLANS = {
    # Document 001's figure: 7 waits for 16; 12 waits for 6, 7 and 16.
    "figure": Plan([SERIAL] * 3, 3, 17, [(7, [16]), (12, [6, 7, 16])]),
    # Case h: 0 waits for 1 and 2, 1 waits for 2, so the order is 2, 1, 0.
    "backwards": Plan([SERIAL, SERIAL], 2, 3, [(0, [1, 2]), (1, [2])]),
    # 1 and 2 wait for each other, and 4 for a token that never enters.
    "stuck": Plan([SERIAL, PARALLEL], 2, 6, [(1, [2]), (2, [1]), (4, [9])]),
    # A parallel second pipe lets token 1 overtake token 0.
    "overtaking": Plan([SERIAL, PARALLEL], 2, 2, []),
    # Ten cells to be rounded: 2 waits for 5, and 6 for 7 and 8.
    "rounding": Plan([SERIAL, SERIAL], 3, 10, [(2, [5]), (6, [7, 8])]),
}

# The cells of `rounding`, token by token, with the pipe that rounds them and its base.
CELLS = [2, 2, 11, 1, 7, 2, 4, 2, 6, 2]
ROUNDING_PIPE, BASE = 1, 5


# The small run of the README, by two workers over `backwards`.
SMALL_RUN = list(zip([0, 0, 0, 1, 0, 1, 0, 1, 0, 1, 0, 0, 0], [0, 0, 1, 0, 1, 0, 1, 0, 1, 0, 1, 0, 0]))


def all_lines_list(plan, workers):
    """Workers that go round the lines and take the next that may be chosen."""
    run = Run(plan, workers)
    choices = []
    line = 0
    while not run.ended:
        while run.refusal(run.practice_worker(line), line):
            line = (line + 1) % plan.lines
        choices.append((run.practice_worker(line), line))
        run.choose(*choices[-1])
        line = (line + 1) % plan.lines
    return choices


def whole_runs(plan):
    """The order's name, W and its choices: two that end the run."""
    # The paper's one-worker run: each place through all pipes, then the line that stops.
    yield "one-worker", 1, one_worker_list(plan)
    workers = min(plan.lines, 32)
    yield "all-lines", workers, all_lines_list(plan, workers)


def orders():
    """Each worker order's name, its plan's name and the program's input."""
    for name, plan in PLANS.items():
        for order, workers, choices in whole_runs(plan):
            yield f"{name}.{order}", name, program_input(workers, choices)
    choices = by_practice(PLANS["overtaking"], 2, [0, 0, 0, 1, 1, 1, 1])
    yield "overtaking.overtakes", "overtaking", program_input(2, choices)
    yield "overtaking.more-workers", "overtaking", program_input(32, choices)
    # 26 and 12 before the first start, 26 for another worker's finish, 13 for a busy worker, 10.
    choices = [(2, 0), (0, 1), (0, 0), (1, 0), (0, 0), (0, 0), (0, 1), (1, 1), (0, 2)]
    yield "backwards.refused", "backwards", program_input(2, choices)
    # With refused choices left in, a larger hall lets worker 2 in, and the rest goes another way.
    yield "backwards.refused-more", "backwards", program_input(3, choices)


def journals():
    """Each journal's name, its plan's name and W, its records and the verdict on it."""
    records, _ = journal_of(PLANS["backwards"], 2, SMALL_RUN)
    yield "backwards.complete", "backwards", 2, records, (COMPLETE,)
    # Token 0 let in before token 1, for which it waits.
    kind, line, pipe, _, place, worker = records[2]
    mistaken = [*records[:2], (kind, line, pipe, 0, place, worker), *records[3:]]
    yield "backwards.mistake", "backwards", 2, mistaken, (WRONG, 2, 20)


def commands():
    """Each file of commands by its name: the orders over `rounding`, with its cells."""
    for order, workers, choices in whole_runs(PLANS["rounding"]):
        yield f"rounding.{order}", [
            "plan examples/rounding.plan",
            f"open {workers} {ROUNDING_PIPE} {BASE} examples/rounding.cells",
            *(f"choose {worker} {line}" for worker, line in choices),
            "ended",
            "figures",
            "sum",
        ]


def answers_to(lines):
    """The console's answers, and that they end with the figures and the sum of the sheet."""
    plan = PLANS["rounding"]
    with tempfile.TemporaryDirectory() as room:
        os.mkdir(os.path.join(room, "examples"))
        for name, data in (("rounding.plan", encode(plan)), ("rounding.cells", cells_bytes(CELLS))):
            with open(os.path.join(room, "examples", name), "wb") as out:
                out.write(data)
        text = console_output(room, lines)
    figures = sheet_figures(plan, BASE, CELLS)
    end = "E\nC %s\nT %d\n" % (" ".join(map(str, figures)), sum(CELLS))
    assert text.endswith(end.encode("ascii"))
    return text


def table():
    """The rows of the README's table: place, token, cell, T, published sum, figure."""
    total = 0
    for place, token in enumerate(plain_sheet(PLANS["rounding"]).order):
        before, total = total, total + CELLS[token]
        there = published(BASE, total)
        yield place, token, CELLS[token], total, there, there - published(BASE, before)


def check_readme():
    rows = "".join("| %d | %d | %d | %d | %d | %d |\n" % row for row in table())
    with open(os.path.join(FOLDER, "README.md"), encoding="utf-8") as file:
        if rows not in file.read():
            sys.exit("examples/README.md has another table than this:\n" + rows)


def files():
    for name, plan in PLANS.items():
        data = encode(plan)
        read(data)
        yield name + ".plan", data
    for name, plan, choices in orders():
        yield name + ".choices", choices
        yield name + ".output", output(encode(PLANS[plan]), choices)
    for name, plan, workers, records, verdict in journals():
        assert mark(encode(PLANS[plan]), workers, records)[0] == verdict
        yield name + ".journal", journal_bytes(records)
    yield "rounding.cells", cells_bytes(CELLS)
    for name, lines in commands():
        text = "".join(line + "\n" for line in lines).encode("ascii")
        yield name + ".commands", text
        yield name + ".answers", answers_to(text)


def write():
    for name, data in files():
        with open(os.path.join(FOLDER, name), "wb") as out:
            out.write(data)


def check():
    wanted = dict(files())
    for name, data in wanted.items():
        with open(os.path.join(FOLDER, name), "rb") as stored:
            if stored.read() != data:
                sys.exit("examples/%s is not what the second implementation makes" % name)
    check_readme()
    print("examples: %d files are as the second implementation makes them" % len(wanted))


def run(program):
    program = os.path.abspath(program)
    count = 0
    for name, plan, choices in orders():
        with tempfile.TemporaryDirectory() as room:
            with open(os.path.join(room, "plan.bin"), "wb") as out:
                out.write(encode(PLANS[plan]))
            got = subprocess.run([program], input=choices, cwd=room, stdout=subprocess.PIPE).stdout
        if got != output(encode(PLANS[plan]), choices):
            sys.exit("the program differs on examples/%s.choices" % name)
        count += 1
    print("examples: the program prints what is stored for %d worker orders" % count)


if __name__ == "__main__":
    if sys.argv[1:] == ["--write"]:
        write()
    elif sys.argv[1:] == ["--check"]:
        check()
    elif len(sys.argv) == 3 and sys.argv[1] == "--run":
        run(sys.argv[2])
    else:
        sys.exit(__doc__)
