"""Compares a built program with the second implementation on random cases.

    python3 tests/fuzz.py --program PATH --seconds S --seed N
    python3 tests/fuzz.py --console PATH --seconds S --seed N

Each case of the scheduler is a plan file and an input in a folder of its own. The
first difference is written out in hexadecimal and ends the comparison with 1.

In some cases the program runs again: on the choices that it accepted, under a
larger limit and with neighbours swapped; and on the whole input under a larger
limit, if all its workers are below W. A long run in which one of these never came
ends with 1, too.

Each script of the console is a list of commands, and of lines that are none, over
fresh plan files, journals of real runs and cells to be rounded, many of them damaged;
its input comes in pieces or as a file. The first difference ends the comparison with 1, and
its files are left in a folder. So does a long run in which a kind of line, journal, cells
or answer never came.
"""

import argparse
import copy
import shutil
import subprocess
import sys
import tempfile
import threading
import time
from collections import Counter
from pathlib import Path

sys.path.insert(0, str(Path(__file__).resolve().parent / "second"))

import makers
import plan_file
import scripts
from chance import Chance
from console import BuiltConsole
from plan_file import Refused, encode
from program import output
from run import MOST_WORKERS, Run

# A program that hangs differs, too.
LONGEST_ANSWER = 120

REUSED = "reused under a larger limit"
SWAPPED = "neighbours swapped"
ALIKE = "lists answered alike"
KINDS = (REUSED, SWAPPED, ALIKE)

# More cases than these try each kind, and so do more scripts; if not, the fault is here.
ENOUGH_CASES = 1000
ENOUGH_SCRIPTS = 300


def random_workers(chance):
    if chance.one_in(10):
        return chance.pick([0, 0, 33, 33, 34, 255, chance.between(35, 254)])
    return chance.pick([1, 1, 2, 2, 3, 4, 7, 31, 32, chance.between(1, 32)])


def random_choices(chance, plan, workers, most):
    if chance.one_in(25):
        return []
    manner = chance.below(8)
    if manner == 0 or not 1 <= workers <= 32:
        return makers.random_list(chance, plan, workers, chance.between(0, min(most, 2000)), past=4)
    if manner == 1:
        choices = makers.one_worker_list(plan)[:most]
        return choices + [(0, 0), (0, plan.lines), (workers, 0)] if chance.one_in(2) else choices
    if manner == 2:
        return [(chance.below(256), chance.below(256)) for _ in range(chance.between(0, 50))]
    if manner < 5:
        choices = any_worker_list(chance, plan, workers, most)
    else:
        strays = chance.pick([0, 2, 6, 20])
        choices = makers.allowed_list(chance, plan, workers, most, strays=strays)
    return with_far_ones(chance, plan, workers, choices) if chance.one_in(2) else choices


def any_worker_list(chance, plan, workers, most):
    """Lines that some worker may choose, or could if idle, often by another worker.

    So a finish by another one and a start or stop by a busy one come often;
    now and then a line that must wait is among them, and the last three choices
    are any.
    """
    run = Run(plan, workers)
    others = chance.between(2, 6)
    finish_late = chance.one_in(2)
    choices = []
    while len(choices) < most and not run.ended:
        lines = [line for line in range(plan.lines) if run.refusal(0, line) != 12]
        if finish_late and chance.below(3):
            lines = [line for line in lines if not run.running[line]] or lines
        line = chance.below(plan.lines) if chance.one_in(8) else chance.pick(lines)
        worker = run.practice_worker(line)
        if chance.one_in(others):
            busy = [by for by in run.worker_of if by is not None]
            worker = chance.pick(busy + [chance.below(workers)])
        choices.append((worker, line))
        run.choose(worker, line)
    return choices + [(chance.below(workers), chance.below(plan.lines)) for _ in range(3)]


def with_far_ones(chance, plan, workers, choices):
    """The list with some choices put in whose worker or line is past its limit, up to 255.

    These are refused, so the rest goes on as it was.
    """
    choices = list(choices)
    for _ in range(chance.between(1, 12)):
        worker, line = chance.below(workers), chance.below(plan.lines)
        manner = chance.below(3)
        if manner != 0:
            worker = chance.pick([workers, 32, 33, 128, 255, chance.between(workers, 255)])
        if manner != 1:
            line = chance.pick([plan.lines, 32, 33, 128, 255, chance.between(plan.lines, 255)])
        choices.insert(chance.between(0, len(choices)), (worker, line))
    return choices


def random_case(chance):
    """Plan bytes, or None for no file, and input bytes."""
    if chance.one_in(200):
        return None, bytes(chance.below(3) for _ in range(chance.below(4)))
    try:
        plan, most = makers.any_plan(chance)
        data = encode(plan)
        if chance.below(10) < 3:
            data = makers.damaged(chance, data)
            plan = plan_file.read(data)
        else:
            plan_file.read(data)
    except Refused:
        # Refused whatever comes, so some choices for nothing will do.
        return data, bytes(chance.below(34) for _ in range(chance.below(6)))
    workers = random_workers(chance)
    stdin = makers.program_input(workers, random_choices(chance, plan, workers, most))
    if chance.one_in(4):
        # A lone last byte.
        stdin += bytes([chance.pick([0, 1, 255, chance.below(256)])])
    return data, b"" if chance.one_in(100) else stdin


def answer_of(program, folder, data, stdin):
    """What the program at this path writes, or None with why it gave nothing."""
    with tempfile.TemporaryDirectory(dir=folder) as case:
        if data is not None:
            (Path(case) / "plan.bin").write_bytes(data)
        try:
            done = subprocess.run(
                [program], cwd=case, input=stdin, capture_output=True, timeout=LONGEST_ANSWER
            )
        except subprocess.TimeoutExpired:
            return None, "no answer in time"
    if done.returncode != 0:
        return None, f"exit code {done.returncode}"
    return done.stdout, ""


def show_difference(number, seed, data, stdin, expected, there, why):
    print(f"case {number} of seed {seed} differs {why}".rstrip())
    print("plan.bin: " + ("missing" if data is None else data.hex(" ")))
    print("input: " + stdin.hex(" "))
    ours = expected.split(b"\n")
    theirs = [] if there is None else there.split(b"\n")
    for i in range(max(len(ours), len(theirs))):
        one = ours[i] if i < len(ours) else None
        other = theirs[i] if i < len(theirs) else None
        if one != other:
            print(f"output line {i + 1}: expected {one!r}, got {other!r}")
            return


def differs(wanted, folder, number, data, stdin, expected, what=""):
    """Whether the program prints anything else; if so, this is written out."""
    there, why = answer_of(wanted.program, folder, data, stdin)
    if there == expected:
        return False
    show_difference(number, wanted.seed, data, stdin, expected, there, f"{what} {why}".strip())
    return True


def accepted_of(stdin, lines):
    """The choices that were accepted, each with the line printed for it."""
    choices = zip(stdin[1::2], stdin[2::2])
    return [(choice, line) for choice, line in zip(choices, lines) if not line.startswith(b"R")]


def takes_both(run, first, second):
    """Whether the run would accept these two choices, one after the other."""
    if run.refusal(*first):
        return False
    ahead = copy.deepcopy(run)
    ahead.choose(*first)
    return not ahead.refusal(*second)


def swapped(chance, plan, workers, accepted):
    """The list with some neighbours swapped, and how often that was done.

    They are on different lines, and the second implementation accepts them in
    the other order, too. One of the two may be swapped again with the next.
    """
    run = Run(plan, workers)
    often = max(2, len(accepted) // 40)
    accepted = list(accepted)
    many = 0
    for at in range(len(accepted) - 1):
        (first, _), (second, _) = accepted[at:at + 2]
        if first[1] != second[1] and chance.one_in(often) and takes_both(run, second, first):
            accepted[at:at + 2] = accepted[at + 1], accepted[at]
            many += 1
        run.choose(*accepted[at][0])
    return accepted, many


def answered_alike(stdin, lines):
    """Whether a larger limit must change no answer, with a refused one among them.

    Only a worker of W or more can be let in by it.
    """
    refused = any(line.startswith(b"R") for line in lines)
    return refused and all(worker < stdin[0] for worker, _ in zip(stdin[1::2], stdin[2::2]))


def made_of(workers, accepted, last):
    """An input with these choices alone, and the text of their lines."""
    stdin = makers.program_input(workers, [choice for choice, _ in accepted])
    return stdin, b"\n".join([line for _, line in accepted] + [last, b""])


def runs_again(chance, data, stdin, text):
    """Request 2.12: kind, how much it counts, an input and what must be printed.

    Made of a case's own choices and lines, in one case of four, and of the long
    ones in one of forty.
    """
    *lines, last = text.split(b"\n")[:-1]
    if last.startswith(b"R") or not chance.one_in(4 if len(stdin) < 2000 else 40):
        return
    workers = stdin[0]
    accepted = accepted_of(stdin, lines)
    if lines and workers < MOST_WORKERS:
        larger = chance.between(workers + 1, MOST_WORKERS)
        if accepted:
            yield (REUSED, 1, *made_of(larger, accepted, last))
        if answered_alike(stdin, lines):
            yield ALIKE, 1, bytes([larger]) + stdin[1:], text
    accepted, many = swapped(chance, plan_file.read(data), workers, accepted)
    if many:
        yield (SWAPPED, many, *made_of(workers, accepted, last))


def count_up(figures, stdin, expected):
    """Adds what happened in one case; input and output tell it."""
    lines = expected.decode("ascii").split("\n")[:-1]
    number = 0 if lines[-1] in ("E", "O") else int(lines[-1].split()[1])
    if 0 < number < 8:
        figures["plans", number] += 1
        return
    figures["accepted plans"] += 1
    # 34 stands for all above 33.
    figures["W", min(stdin[0], 34) if stdin else None] += 1
    if number == 8:
        figures["openings", number] += 1
        return
    figures["choices"] += len(lines) - 1
    figures["ended runs"] += lines[-1] == "E"
    figures["no choice"] += len(lines) == 1
    figures["lone last bytes"] += len(stdin) % 2 == 0
    for worker, line in zip(stdin[1::2], lines[:-1]):
        if line.startswith("R"):
            figures["choices", int(line.split()[1])] += 1
            if line == "R 26":
                figures["26 beyond W" if worker >= stdin[0] else "26 another"] += 1
        else:
            figures["accepted choices"] += 1


def summary(figures):
    def by_number(kind, numbers):
        return " ".join(f"{number}:{figures[kind, number]}" for number in numbers)

    again = "; ".join(f"{kind} {figures[kind]}" for kind in KINDS)
    return (
        f"cases {figures['cases']}; accepted plans {figures['accepted plans']};"
        f" refused plans {by_number('plans', range(1, 8))};"
        f" refused openings {by_number('openings', [8])};"
        f" choices {figures['choices']}; accepted choices {figures['accepted choices']};"
        f" refused choices {by_number('choices', [10, 11, 12, 13, 26])};"
        f" ended runs {figures['ended runs']};"
        f" 26 for W or more {figures['26 beyond W']}, for another worker {figures['26 another']};"
        f" lone last bytes {figures['lone last bytes']}; no choice {figures['no choice']};"
        f" W none:{figures['W', None]} {by_number('W', [0, 1, 32, 33])} above:{figures['W', 34]};"
        f" {again}"
    )


def never_tried(figures):
    """The kinds that should have come by now and did not."""
    if figures["cases"] <= ENOUGH_CASES:
        return []
    return [kind for kind in KINDS if not figures[kind]]


def compare(wanted, folder, figures):
    """Cases until the time is over; False as soon as one differs."""
    chance = Chance(wanted.seed)
    until = time.monotonic() + wanted.seconds
    while time.monotonic() < until:
        data, stdin = random_case(chance)
        expected = output(data or b"", stdin)
        figures["cases"] += 1
        if differs(wanted, folder, figures["cases"], data, stdin, expected):
            return False
        count_up(figures, stdin, expected)
        for kind, many, again, lines in runs_again(chance, data, stdin, expected):
            figures[kind] += many
            if differs(wanted, folder, figures["cases"], data, again, lines, kind):
                return False
    return True


def write_pieces(pipe, parts):
    """Each piece by itself; some are given time to be read as such."""
    try:
        for part, pause in parts:
            while part:
                part = part[pipe.write(part):]
            if pause:
                time.sleep(0.0003)
        pipe.close()
    except BrokenPipeError:
        pass  # it has quit


def console_answer(console, folder, stdin, parts):
    """What the console at this path writes, and why it gave nothing if so.

    The input comes in these parts, or as a file if there are none.
    """
    pipe = subprocess.PIPE
    process = subprocess.Popen(
        [console], cwd=folder, stdin=pipe if parts else stdin, stdout=pipe, bufsize=0
    )
    hanging = threading.Timer(LONGEST_ANSWER, process.kill)
    hanging.start()
    if parts:
        # Beside the reading, as neither side may wait for the other.
        writer = threading.Thread(target=write_pieces, args=(process.stdin, parts))
        writer.start()
    text = process.stdout.read()
    code = process.wait()
    hanging.cancel()
    process.stdout.close()
    if parts:
        writer.join()
        process.stdin.close()
    return text, f"exit code {code}" if code else ""


def script_differs(wanted, chance, number, script, folder):
    """Whether the console answers a script otherwise; if so, the files are kept."""
    data, expected = script.input(), script.expected()
    parts = []
    if not chance.one_in(4):
        parts = [(part, chance.one_in(4)) for part in scripts.pieces(chance, data)]
    in_blocks = len(data) > scripts.BLOCK and parts and len(parts[0][0]) == scripts.BLOCK
    some_way = scripts.IN_PIECES if parts else scripts.AS_FILE
    script.figures[scripts.IN_BLOCKS if in_blocks else some_way] += 1
    given = Path(folder) / "input"
    given.write_bytes(data)
    with given.open("rb") as stdin:
        there, why = console_answer(wanted.console, folder, stdin, parts)
    if there == expected and not why:
        return False
    kept = Path(tempfile.mkdtemp(prefix="console-")) / "script"
    shutil.copytree(folder, kept)
    (kept / "expected").write_bytes(expected)
    (kept / "got").write_bytes(there)
    print(f"script {number} of seed {wanted.seed} differs {why}".rstrip() + f"; its files are in {kept}")
    ours, theirs = expected.split(b"\n"), there.split(b"\n")
    at = 0
    while at < min(len(ours), len(theirs)) and ours[at] == theirs[at]:
        at += 1
    line = script.lines[at] if at < len(script.lines) else b""
    print(f"answer {at + 1}, to {line[:80]!r}: expected {ours[at:at + 1]}, got {theirs[at:at + 1]}")
    return True


def compare_console(wanted, folder, figures):
    """Scripts until the time is over; False as soon as one differs."""
    chance = Chance(wanted.seed)
    until = time.monotonic() + wanted.seconds
    while time.monotonic() < until:
        with tempfile.TemporaryDirectory(dir=folder) as room:
            script = scripts.Script(chance, room, made=BuiltConsole).make()
            figures["scripts"] += 1
            if script_differs(wanted, chance, figures["scripts"], script, room):
                return False
        figures.update(script.figures)
    return True


def console_summary(figures):
    return (
        f"scripts {figures['scripts']}; lines {figures['lines']}; "
        + "; ".join(f"{kind}: {figures[kind]}" for kind in scripts.KINDS)
    )


def console_never_tried(figures):
    if figures["scripts"] <= ENOUGH_SCRIPTS:
        return []
    return [kind for kind in scripts.KINDS if not figures[kind]]


def run(wanted, compare_all, summary_of, missing_of):
    """One comparison; whether all was the same and tried."""
    figures = Counter()
    with tempfile.TemporaryDirectory() as folder:
        same = compare_all(wanted, folder, figures)
    print(summary_of(figures))
    missing = missing_of(figures)
    if missing:
        print("never tried: " + ", ".join(missing))
    return same and not missing


def main():
    parser = argparse.ArgumentParser(description=__doc__.split("\n")[0])
    parser.add_argument("--program", type=lambda path: str(Path(path).resolve()))
    parser.add_argument("--console", type=lambda path: str(Path(path).resolve()))
    parser.add_argument("--seconds", type=float, default=10)
    parser.add_argument("--seed", type=int, default=1)
    wanted = parser.parse_args()
    if wanted.program is None and wanted.console is None:
        parser.error("--program or --console")

    well = True
    if wanted.program is not None:
        well = run(wanted, compare, summary, never_tried)
    if well and wanted.console is not None:
        well = run(wanted, compare_console, console_summary, console_never_tried)
    return 0 if well else 1


if __name__ == "__main__":
    sys.exit(main())
