"""The runs among the stored vectors, and the text expected for each."""

import makers
from cases import CASE_A_FILE, CASE_A_INPUT, CASES
from chance import Chance
from makers import (
    allowed_list,
    big_pipes,
    by_practice,
    one_worker_list,
    program_input,
    random_list,
    random_plan,
    raw_file,
    raw_record,
    round_robin_list,
)
from plan_file import Plan, encode, two_bytes
from program import output
from run import Run


# Kind 0: the input's bytes are stored. Kind 1: choices made by a rule.

def given(plan, data):
    """An entry with its input: (plan bytes, kind 0, input bytes)."""
    return (plan, 0, bytes(data))


def made(plan, workers, many, seed, modulus):
    """An entry whose choices follow from a seed."""
    return (plan, 1, (workers, many, seed, modulus))


def four_bytes(number):
    return two_bytes(number % 65536) + two_bytes(number // 65536)


def stored(entries):
    data = bytearray()
    for plan, kind, what in entries:
        data += two_bytes(len(plan)) + plan + bytes([kind])
        if kind == 0:
            data += four_bytes(len(what)) + what
        else:
            workers, many, seed, modulus = what
            data += bytes([workers]) + four_bytes(many) + four_bytes(seed) + two_bytes(modulus)
    return bytes(data)


def made_input(workers, many, seed, modulus):
    """Of each choice the line is drawn, and its worker is the line's number mod W.

    One time in 16 it is W or more instead; for a line past any L it may be any.
    """
    data = bytearray([workers])
    s = seed
    for _ in range(many):
        s = (1664525 * s + 1013904223) % 4294967296
        line = (s // 65536) % modulus
        if s < 268435456:
            data.append((workers + line) % 256)
        else:
            data.append(line % workers if workers else 0)
        data.append(line)
    return bytes(data)


FACTOR = 65599
MODULUS = 4294967291


def checksum(data):
    """h starts at 1 and becomes h * FACTOR + byte (mod MODULUS) for each byte.

    A piece of the output makes h * m + c of h, with m and c its own. Short
    lines, and the parts before and after a longer one's third space, come again
    and again, so theirs are kept; byte by byte would take most of a check.
    """
    known = {}
    h = 1
    for line in data.splitlines(keepends=True):
        if len(line) < 8:
            pieces = (line,)
        else:
            tail = line.split(b" ", 3)[-1]
            pieces = (line[:len(line) - len(tail)], tail)
        for piece in pieces:
            if piece not in known:
                m, c = 1, 0
                for byte in piece:
                    m = m * FACTOR % MODULUS
                    c = (c * FACTOR + byte) % MODULUS
                known[piece] = (m, c)
            m, c = known[piece]
            h = (h * m + c) % MODULUS
    return h


def expected_entry(entry):
    plan, kind, what = entry
    if kind == 0:
        return b"=\n" + output(plan, what)
    text = output(plan, made_input(*what))
    return b"# %d %d\n" % (text.count(b"\n"), checksum(text))


def expected(entries):
    return b"".join(expected_entry(entry) for entry in entries)


def run_entries():
    """All of them, in a fixed order."""
    return (
        case_entries()
        + wrong_turn_entries()
        + refusal_entries()
        + narrow_entries()
        + stop_first_entries()
        + limit_entries()
        + random_entries()
        + long_entries()
    )


def given_run(plan, workers, choices):
    return given(encode(plan), program_input(workers, choices))


def given_lines(plan, workers, lines):
    """A run where lines are listed alone: practice's workers go with them."""
    return given_run(plan, workers, by_practice(plan, workers, lines))


def cut_after_end(plan, workers, choices, more=3):
    """The list without what comes long after the end, where all is 10, 11 or 26."""
    run = Run(plan, workers)
    for i, choice in enumerate(choices):
        if run.ended:
            return choices[:i + more]
        run.choose(*choice)
    return choices


def case_entries():
    chance = Chance(2001)
    entries = [given(CASE_A_FILE, CASE_A_INPUT)]
    for name, case in CASES.items():
        plans = [case.plan(), case.plan(lines=2), case.plan([True, False], lines=2)]
        if name == "b":
            plans = [case.plan(), case.plan(lines=3), case.plan([True] * 3),
                     case.plan([True] * 3, lines=3), case.plan([True, False, True], lines=3)]
        for plan in plans:
            entries.append(given_run(plan, 1, one_worker_list(plan)))
            ends_after = len(one_worker_list(plan))
            if name == "b":
                choices = cut_after_end(plan, 3, round_robin_list(plan, 3, 3 * ends_after))
                entries.append(given_run(plan, 3, choices))
            workers = chance.between(1, 3)
            entries.append(
                given_run(plan, workers, allowed_list(chance, plan, workers, 150, strays=5))
            )
            workers = chance.between(1, 3)
            choices = cut_after_end(plan, workers, random_list(chance, plan, workers, 80, past=3))
            entries.append(given_run(plan, workers, choices))
    return entries


def wrong_turn_entries():
    entries = []
    both = [0, 0, 0, 1, 1, 1, 1]
    for pipes in ([True, False], [True, True]):
        plan = Plan(pipes, 2, 2)
        entries.append(given_lines(plan, 2, both))
        # On to the end.
        entries.append(given_lines(plan, 2, both + [0, 1, 1, 0, 0, 1, 1, 0]))
    # Placing by token number: case d's token 1 runs on line 0.
    plan = CASES["d"].plan(lines=2)
    entries.append(given_run(plan, 1, one_worker_list(plan)))
    entries.append(given_lines(plan, 2, [1, 0, 0, 0, 1, 1, 1, 0, 0]))
    # A new token though one is ready: case i.
    plan = CASES["i"].plan(lines=3)
    entries.append(given_run(plan, 1, one_worker_list(plan)))
    # A counter filled after the falls: one line, with one pipe and with more.
    for pipes in ([True], [True, True], [True, False], [True, True, False]):
        plan = Plan(pipes, 1, 3)
        entries.append(given_run(plan, 1, one_worker_list(plan) + [(0, 0), (0, 1)]))
    return entries


def refusal_entries():
    entries = []
    plan = CASES["b"].plan([True, False], lines=3)
    data = encode(plan)
    # 8.
    entries.append(given(data, b""))
    some = [(0, 0), (0, 0), (0, 1)]
    for workers in (0, 33, 34, 255):
        entries.append(given_run(plan, workers, []))
        entries.append(given_run(plan, workers, some))
    # W at its limits, with and without choices.
    for workers in (1, 32):
        entries.append(given_run(plan, workers, []))
        entries.append(given_run(plan, workers, some))
    # 10 for each line past L, up to the highest byte.
    entries.append(given_lines(plan, 1, [0, 2, 3, 4, 16, 31, 32, 33, 127, 128, 254, 255, 0]))
    wide = Plan([True], 32, 40)
    entries.append(given_lines(wide, 2, [31, 32, 33, 255, 0, 0, 1, 31]))
    # 11 after the end, 10 still before it; and not after a first stop alone.
    entries.append(given_lines(CASES["c"].plan(), 1, [0, 0, 1, 0, 255]))
    entries.append(given_lines(CASES["e"].plan(), 32, [0, 0, 1, 0, 255]))
    entries.append(
        given_lines(Plan([True, True], 2, 1), 2, [0, 0, 0, 1, 0, 1, 0, 1, 2, 0, 1])
    )
    entries.append(
        given_lines(Plan([True, False], 2, 1), 2, [0, 0, 1, 1, 0, 0, 1, 0, 1, 2])
    )
    # 12 before 13: a waiting line with a counter above 0, all workers busy.
    entries.append(given_lines(Plan([True, False], 3, 4), 1, [0, 1, 2, 0, 1, 0, 1, 2, 1, 0]))
    # 13 for a start at pipe 0, for a start elsewhere and for a stop.
    entries.append(given_lines(Plan([True, True], 2, 2), 1, [0, 0, 0, 1, 0, 1, 0, 1, 0, 1]))
    entries.append(given_lines(Plan([True, True], 2, 1), 1, [0, 0, 0, 1, 0, 1, 1, 0]))
    entries.append(
        given_lines(Plan([True, False], 3, 3), 2, [0, 0, 0, 1, 2, 1, 2, 1, 0, 2, 2, 2, 1, 0, 0, 0])
    )
    # Nobody but line 0 may begin.
    entries.append(given_lines(Plan([True], 4, 4), 4, [3, 2, 1, 0, 3, 2, 1, 0]))
    # 26 for each worker past W, up to the highest byte, after 10 and before 11 and 12.
    beyond = [(worker, 0) for worker in (2, 3, 31, 32, 255)]
    entries.append(given_run(plan, 2, beyond + [(2, 3), (2, 1), (1, 0), (2, 0), (1, 0)]))
    entries.append(
        given_run(CASES["c"].plan(), 1, [(1, 0), (0, 0), (1, 0), (0, 0), (1, 1), (0, 1)])
    )
    # 26 for a finish by another worker, at pipe 0 and elsewhere; 12 and not 13
    # for a busy worker's start too early; 13 for a start and for a stop while
    # the worker runs another line, though one is idle.
    choices = [
        (1, 0), (0, 0), (2, 0), (1, 1), (1, 0), (2, 0), (1, 0), (2, 1), (2, 0), (0, 1), (0, 1),
        (0, 1), (0, 2), (1, 2), (1, 0), (2, 0), (1, 2), (1, 1), (0, 1), (0, 2), (0, 2), (0, 0),
        (1, 0),
    ]
    entries.append(given_run(Plan([True, False], 3, 3), 3, choices))
    choices = [(1, 0), (1, 0), (1, 0), (1, 1), (0, 1), (0, 0), (1, 0), (0, 0), (0, 1)]
    entries.append(given_run(Plan([True, True], 2, 1), 2, choices))
    # A lone last byte is ignored, whatever it is.
    for stdin in (b"\x02\0", b"\x02\1\0\0", b"\x02\0\0\xff", b"\x02\1\0\1\0\1\0\1"):
        entries.append(given(data, stdin))

    # Refused plans, each number, with input that would be fine, absent, or 8.
    refused = [
        b"",
        b"\0",
        data[1:],
        raw_file(edition=2),
        raw_file(pipes=b"S" * 17),
        raw_file(lines=33),
        raw_file(tokens=4097),
        raw_file(pipes=b"P"),
        raw_file(raw_record(4, [1]), r=1),
        raw_file(raw_record(1, [2]), r=2),
        raw_file(raw_record(1, [1]), r=1),
        encode(makers.plan_with_total(8193)),
    ]
    for plan_bytes in refused:
        entries.append(given(plan_bytes, program_input(1, [(0, 0)] * 3)))
        if len(plan_bytes) < 100:
            entries.append(given(plan_bytes, b""))
            entries.append(given(plan_bytes, program_input(33, [(0, 0)])))
    entries.append(made(b"", 1, 10, 1, 4))
    entries.append(made(data, 0, 10, 1, 4))
    entries.append(made(data, 1, 0, 1, 4))
    entries.append(made(data, 2, 40, 4294967295, 256))
    return entries


def narrow_entries():
    """One line, one pipe, and both."""
    chance = Chance(2002)
    entries = []
    for pipes in ([True], [True, True], [True, False], [True, False, False, True]):
        for lines in (1, 2, 5):
            if len(pipes) > 1 and lines > 1:
                continue
            for tokens, records in (
                (3, []), (4, [(0, [2, 3]), (1, [3])]), (3, [(0, [1]), (1, [0])]), (3, [(1, [3])]),
            ):
                plan = Plan(pipes, lines, tokens, records)
                entries.append(given_run(plan, 1, one_worker_list(plan) + [(0, 0)]))
                workers = chance.between(1, 4)
                choices = allowed_list(chance, plan, workers, 60, strays=4)
                entries.append(given_run(plan, workers, choices))
    return entries


def stop_first_entries():
    """Runs that are marked stopped for most of their choices.

    Every token goes through pipe 0, then comes the stop, and then each line in turn:
    many get 12 up to the end, and all get 11 past it.
    """
    entries = []
    for plan, workers in (
        (Plan([True, False, True], 32, 31), 32),
        (Plan([True, False, True], 32, 31), 1),
        (Plan(big_pipes(), 5, 4), 2),
        (Plan([True, True], 2, 1), 1),
    ):
        first = [line for line in range(plan.tokens) for _ in range(2)] + [plan.tokens]
        # Before the end each round has a choice that is accepted.
        rounds = 2 * plan.tokens * len(plan.pipes)
        choices = by_practice(plan, workers, first + list(range(plan.lines)) * rounds)
        choices = cut_after_end(plan, workers, choices, more=plan.lines)
        entries.append(given_run(plan, workers, choices))
    return entries


def limit_entries():
    """Each figure alone at its limit, in runs that end or nearly so."""
    chance = Chance(2003)
    entries = []
    for plan, workers in (
        (Plan(big_pipes(), 2, 3, [(0, [1])]), 2),
        (Plan([True] * 16, 1, 2), 1),
        (Plan([True] + [False] * 15, 4, 4, [(0, [2])]), 4),
        (Plan([True, True], 32, 36, [(3, [30]), (30, [33])]), 3),
        (Plan([True, False], 32, 40), 32),
        (Plan([True, False, False], 32, 33, [(t, [32]) for t in range(16)]), 32),
        # Numbers of a record at its most, and the highest number there is.
        (Plan([True], 3, 18, [(0, list(range(1, 17))), (1, list(range(2, 18)))]), 2),
        (Plan([True], 2, 4, [(1, [65535]), (2, [0, 3])]), 1),
    ):
        choices = allowed_list(chance, plan, workers, 260, strays=9)
        entries.append(given_run(plan, workers, choices))
    # The longest file of all: nobody ordered, one choice stops.
    entries.append(given_lines(makers.longest_plan(), 1, [0, 0, 32, 1]))
    return entries


def random_entries():
    chance = Chance(2004)
    entries = []
    for number in range(280):
        plan = random_plan(chance, pipes=chance.pick([1, 2, 3, 4]), lines=chance.pick([2, 3, 4, 6]),
                           tokens=chance.pick([5, 10, 15, 20]))
        workers = chance.pick([1, 1, 2, 2, 3, 4, 32])
        most = chance.between(60, 117)
        manner = number % 3
        if manner == 0:
            choices = random_list(chance, plan, workers, most, past=3)
        else:
            choices = allowed_list(chance, plan, workers, most, strays=2 if manner == 1 else 8)
        entries.append(given_run(plan, workers, cut_after_end(plan, workers, choices)))
    return entries


def long_plans():
    """Plans at the limits, by name."""
    chance = Chance(2005)
    full = 4096
    third = makers.third_records(full)
    every = makers.full_records(full)
    sixteen = makers.sixteen_records(chance, full)
    both = makers.both_ways_records(chance, full)
    # Sticking: every 50th token in a cycle of three with later ones, which some
    # wait for; and some that wait for a number that never enters.
    cycles = []
    for t in range(0, full - 60, 50):
        cycles += [(t, [t + 20, t + 31]), (t + 5, [t + 6, t + 31]), (t + 9, [t + 1, t + 10]),
                   (t + 20, [t + 40]), (t + 33, [t + 20]), (t + 40, [t])]
    never = [(t, [t + 7, full + t % 3, 65535] if t % 64 == 0 else [t + 1, t + 30])
             for t in range(0, full - 40, 4)]
    # All wait: the last one lets the others in backwards, or each the oldest that is left.
    backwards = [(t, [t + 1]) for t in range(full - 1)]
    oldest = [(0, [full - 1])] + [(t, [t - 1]) for t in range(1, full - 1)]
    # Many wait for the same sixteen, of which the highest comes first.
    highest = [(t, list(range(511, 527))) for t in range(511)]
    highest += [(t, [t + 1]) for t in range(511, 526)]
    return {
        "plain": Plan([True] * 16, 32, full),
        "third": Plan(big_pipes(), 32, full, third),
        "every": Plan([True] * 16, 32, full, every),
        "sixteen": Plan(big_pipes(), 32, full, sixteen),
        "both": Plan([True] + [False] * 15, 32, full, both),
        "cycles": Plan(big_pipes(), 32, full, cycles),
        "never": Plan([True] * 16, 32, full, never),
        "one line": Plan(big_pipes(), 1, full, third),
        "one pipe": Plan([True], 32, full, every),
        "one of each": Plan([True], 1, full, sixteen),
        "two lines": Plan(big_pipes(), 2, full, both),
        "few": Plan([True, True, False], 5, full, third),
        "total": Plan([True, False], 3, full, makers.plan_with_total(8192).records),
        "backwards": Plan([True], 1, full, backwards),
        "oldest": Plan([True], 1, full, oldest),
        "highest": Plan([True, False], 2, full, highest),
    }


# Name, W, number of choices, seed, modulus. The numbers are such that most of
# these runs end; a modulus above L brings some choices of lines past it.
LONG_RUNS = [
    ("plain", 1, 2480000, 11, 32),
    ("plain", 7, 620000, 12, 32),
    ("plain", 32, 365000, 13, 32),
    ("third", 1, 300000, 21, 32),  # does not end
    ("third", 7, 612000, 22, 32),
    ("third", 32, 372000, 23, 34),
    ("every", 1, 200000, 31, 32),  # does not end
    ("every", 7, 628000, 32, 32),
    ("every", 32, 365000, 33, 32),
    ("sixteen", 7, 610000, 41, 32),
    ("sixteen", 32, 352000, 42, 32),
    ("both", 7, 540000, 51, 32),
    ("both", 32, 282000, 52, 32),
    ("cycles", 7, 563000, 61, 32),
    ("cycles", 32, 323000, 62, 32),
    ("never", 7, 613000, 71, 32),
    ("never", 32, 360000, 72, 32),
    ("one line", 1, 139900, 81, 1),
    ("one line", 32, 139717, 82, 1),  # one choice short of the end
    ("one line", 7, 280000, 83, 2),
    ("one pipe", 7, 275000, 91, 32),
    ("one of each", 1, 8770, 101, 1),
    ("one of each", 32, 17700, 102, 2),
    ("two lines", 1, 215000, 111, 2),
    ("two lines", 32, 218000, 112, 3),
    ("few", 1, 94000, 121, 5),
    ("few", 7, 63000, 122, 6),
    ("few", 32, 52000, 123, 5),
    ("total", 1, 42000, 131, 3),
    ("total", 32, 300000, 132, 256),  # mostly refused with 10
    ("backwards", 1, 8770, 141, 1),
    ("oldest", 32, 17700, 142, 2),
    ("highest", 7, 23000, 143, 2),
]


def long_entries():
    plans = {name: encode(plan) for name, plan in long_plans().items()}
    return [
        made(plans[name], workers, many, seed, modulus)
        for name, workers, many, seed, modulus in LONG_RUNS
    ]
