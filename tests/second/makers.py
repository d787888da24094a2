"""Plans, damaged plan files and lists of choices, made by chance or at the limits."""

from plan_file import Plan, Refused, encode, read, two_bytes
from run import Run
from sheet import plain_sheet


# Plans.

def random_pipes(chance, many):
    return [True] + [chance.below(3) > 0 for _ in range(many - 1)]


def random_records(chance, tokens, often, most):
    """Records of one of several manners, for about `often` of 8 tokens."""
    manner = chance.below(6)
    rank = chance.shuffled(range(tokens))
    records = []
    for token in range(tokens):
        if chance.below(8) >= often:
            continue
        if manner == 0:  # only later ones
            pool = range(token + 1, tokens)
        elif manner == 1:  # only earlier ones, which bind nothing
            pool = range(token)
        elif manner in (2, 3):  # both ways, but without a cycle
            pool = [number for number in range(tokens) if rank[number] < rank[token]]
        elif manner == 4:  # later ones, and once in a while one that never enters
            pool = list(range(token + 1, tokens))
            if chance.one_in(8):
                pool += [tokens, tokens + 1 + chance.below(50), 65535]
        else:  # anything, so mostly cycles
            pool = range(tokens + chance.below(2))
        pool = sorted({number for number in pool if number != token})
        numbers = sorted(chance.some(pool, chance.between(1, most)))
        if numbers:
            records.append((token, numbers))
    return records


def random_plan(chance, pipes=4, lines=5, tokens=12):
    """A small valid plan; the figures are the highest to be had."""
    n = chance.between(0 if chance.one_in(4) else tokens // 2, tokens)
    records = random_records(chance, n, chance.between(0, 8), chance.pick([1, 2, 3, 16]))
    return Plan(
        random_pipes(chance, chance.between(1, pipes)), chance.between(1, lines), n, records
    )


def big_pipes():
    """16 pipes, of both kinds."""
    return [pipe % 4 != 3 for pipe in range(16)]


def third_records(tokens=4096):
    """Every third token to t+2 and t+9, as far as these enter."""
    return [(t, [t + 2, t + 9]) for t in range(0, tokens - 9, 3)]


def full_records(tokens=4096, total=8192):
    """Every token but the last on the next two: all wait for the last one."""
    records = [(t, [t + 1, t + 2]) for t in range(tokens - 2)]
    records.append((tokens - 2, [tokens - 1]))
    listed = sum(len(numbers) for _, numbers in records)
    for i in range(total - listed):
        token, numbers = records[i]
        records[i] = (token, numbers + [token + 3])
    return records


def sixteen_records(chance, tokens=4096, many=512, spread=600):
    """Many tokens with 16 later ones each, without a cycle."""
    records = []
    for token in sorted(chance.some(range(tokens - 17), many)):
        pool = range(token + 1, min(tokens, token + 1 + spread))
        records.append((token, sorted(chance.some(pool, 16))))
    return records


def both_ways_records(chance, tokens=4096, many=2048, most=7):
    """Earlier and later numbers, without a cycle."""
    rank = chance.shuffled(range(tokens))
    records = []
    for token in sorted(chance.some(range(tokens), many)):
        numbers = {chance.below(tokens) for _ in range(chance.between(1, most))}
        numbers = sorted(number for number in numbers if rank[number] < rank[token])
        if numbers:
            records.append((token, numbers))
    return records


def longest_plan():
    """The plan whose file has 32,796 bytes: 4,096 records, 8,192 numbers, 16 pipes.

    As every token has a record, every chain goes on for ever or leaves the
    tokens, so nobody is ordered.
    """
    records = [(t, sorted([(t + 1) % 4096, (t + 5) % 4096])) for t in range(4096)]
    return Plan(big_pipes(), 32, 4096, records)


def plan_with_total(total, tokens=4096, pipes=1, lines=1):
    """Records of 16 later numbers, the last one with what is left of the total."""
    records = []
    token = 0
    while total > 0:
        count = min(16, total)
        records.append((token, list(range(token + 1, token + 1 + count))))
        total -= count
        token += 1
    return Plan([True] * pipes, lines, tokens, records)


def any_plan(chance):
    """A plan of any size, nearly always a valid one, and the most choices that make sense for it."""
    manner = chance.below(20)
    if manner < 9:
        return random_plan(chance), 300
    if manner < 13:
        return random_plan(chance, pipes=6, lines=8, tokens=30), 800
    if manner < 15:
        return random_plan(chance, pipes=1, lines=3, tokens=14), 200
    if manner < 16:
        return random_plan(chance, pipes=3, lines=1, tokens=14), 200
    if manner < 19:
        return random_plan(chance, pipes=16, lines=32, tokens=60), 3000
    return limit_plan(chance), chance.pick([200, 5000, 60000, 140000])


def limit_plan(chance):
    """A plan where some or all figures are at their limits."""
    tokens = 4096
    pipes = random_pipes(chance, chance.pick([1, 2, 16, 16]))
    lines = chance.pick([1, 2, 32, 32])
    manner = chance.below(8)
    if manner == 0:
        records = []
    elif manner == 1:
        records = third_records(tokens)
    elif manner == 2:
        records = full_records(tokens)
    elif manner == 3:
        records = sixteen_records(chance, tokens, spread=chance.pick([16, 100, 4000]))
    elif manner == 4:
        records = both_ways_records(chance, tokens)
    elif manner == 5:
        records = longest_plan().records
    elif manner == 6:
        return plan_with_total(chance.between(8190, 8194), tokens, len(pipes), lines)
    else:  # some numbers never enter, some cycles
        records = []
        for token in sorted(chance.some(range(tokens), 1000)):
            numbers = {chance.below(tokens + 3) for _ in range(chance.between(1, 8))} - {token}
            if chance.one_in(2):
                numbers = {number for number in numbers if number > token}
            if numbers:
                records.append((token, sorted(numbers)))
    return Plan(pipes, lines, tokens, records)


# Files that need not be valid.

def raw_record(token, numbers, count=None):
    data = two_bytes(token) + two_bytes(len(numbers) if count is None else count)
    return data + b"".join(two_bytes(number) for number in numbers)


def raw_file(records=b"", pipes=b"S", lines=1, tokens=4, r=0, a=None, p=None, edition=1):
    """A file with this record part; what is not given is as it should be."""
    fields = (
        len(records) if a is None else a,
        len(pipes) if p is None else p,
        lines,
        tokens,
        r,
        edition,
    )
    return records + pipes + b"".join(two_bytes(number) for number in fields)


def with_start(data, start):
    """The same file with another A, so that a changed length goes unseen."""
    if len(data) < 12:
        return data
    at = len(data) - 12
    return data[:at] + two_bytes(start % 65536) + data[at + 2:]


def damaged(chance, data):
    """The file with one or, now and then, two damages."""
    for _ in range(2 if chance.one_in(4) else 1):
        data = damage(chance, data)
    return data


def damage(chance, data):
    if not data:
        return bytes([chance.below(256)])
    size = len(data)
    body = max(size - 12, 0)
    manner = chance.below(10)
    changed = bytearray(data)
    if manner == 0:  # a byte changed to any other
        changed[chance.below(size)] ^= chance.between(1, 255)
    elif manner == 1:  # a byte of the trailer one up or down
        at = chance.between(body, size - 1)
        changed[at] = (changed[at] + chance.pick([1, 255])) % 256
    elif manner == 2:  # a byte of records or pipes one up or down
        at = chance.below(max(body, 1))
        changed[at] = (changed[at] + chance.pick([1, 255])) % 256
    elif manner == 3:  # bytes cut anywhere
        at = chance.below(size)
        del changed[at:at + chance.between(1, 6)]
    elif manner == 4:  # bytes cut from the body, A going along
        at = chance.below(max(body, 1))
        many = min(chance.pick([1, 2, 2, 4, 6]), max(body - at, 0))
        del changed[at:at + many]
        return with_start(bytes(changed), start_of(data) - many)
    elif manner == 5:  # bytes inserted anywhere
        at = chance.between(0, size)
        changed[at:at] = bytes(chance.below(256) for _ in range(chance.between(1, 6)))
    elif manner == 6:  # fields inserted in the records, A going along
        at = 2 * chance.between(0, start_of(data) // 2)
        many = chance.between(1, 3)
        fields = b"".join(two_bytes(chance.below(20)) for _ in range(many))
        changed[at:at] = fields
        return with_start(bytes(changed), start_of(data) + 2 * many)
    elif manner == 7:  # two bytes swapped
        i, j = chance.below(size), chance.below(size)
        changed[i], changed[j] = changed[j], changed[i]
    elif manner == 8:  # a token made to list itself
        return self_listing(chance, data)
    else:  # two fields of the records swapped
        fields = start_of(data) // 2
        if fields >= 2 and start_of(data) <= size:
            i, j = 2 * chance.below(fields), 2 * chance.below(fields)
            changed[i:i + 2], changed[j:j + 2] = changed[j:j + 2], changed[i:i + 2]
    return bytes(changed)


def self_listing(chance, data):
    """A listed number replaced by its token, with the ascent kept or not."""
    try:
        plan = read(data)
    except Refused:
        return data
    if not plan.records:
        return data
    at = chance.below(len(plan.records))
    token, numbers = plan.records[at]
    numbers = list(numbers)
    numbers[chance.below(len(numbers))] = token
    plan.records[at] = (token, sorted(numbers) if chance.below(3) else numbers)
    return encode(plan)


def start_of(data):
    """A, as far as there is a trailer; never past the file."""
    if len(data) < 12:
        return 0
    at = len(data) - 12
    return min(data[at] + 256 * data[at + 1], at)


# Lists of choices, each a worker and a line.

def by_practice(plan, workers, lines):
    """The choices of lines that are listed alone: practice's workers go with them."""
    run = Run(plan, workers)
    choices = []
    for line in lines:
        choices.append((run.practice_worker(line), line))
        run.choose(*choices[-1])
    return choices


def one_worker_list(plan):
    """The one-worker run of the paper, to be opened with W = 1: worker 0 makes all its choices."""
    ordered = len(plain_sheet(plan).order)
    choices = []
    for k in range(ordered):
        choices += [(0, k % plan.lines)] * (2 * len(plan.pipes))
    choices.append((0, ordered % plan.lines))
    return choices


def round_robin_list(plan, workers, many):
    return by_practice(plan, workers, [i % plan.lines for i in range(many)])


def random_lines(chance, plan, many, past=0):
    """Any lines, and now and then one up to `past` beyond them."""
    lines = []
    for _ in range(many):
        if past and chance.one_in(12):
            lines.append(min(255, plan.lines + chance.below(past)))
        else:
            lines.append(chance.below(plan.lines))
    return lines


def random_list(chance, plan, workers, many, past=0):
    """Any lines, mostly by the worker that practice would name, else by any.

    With `past`, that may be one beyond W.
    """
    lines = random_lines(chance, plan, many, past)
    if not 1 <= workers <= 32:
        return [(chance.below(4), line) for line in lines]
    run = Run(plan, workers)
    choices = []
    for line in lines:
        worker = run.practice_worker(line)
        if chance.one_in(4):
            worker = chance.below(workers + (2 if past else 0))
        choices.append((worker, line))
        run.choose(worker, line)
    return choices


def allowed_list(chance, plan, workers, most, strays=0):
    """Allowed choices picked by chance until the run has ended.

    With `strays`, about one choice in so many is any worker and line instead.
    A leaning to start or to finish makes for many or few running lines.
    """
    run = Run(plan, workers)
    lean = chance.below(3)
    choices = []
    while len(choices) < most and not run.ended:
        if strays and chance.one_in(strays):
            worker, line = chance.below(workers + 1), chance.below(plan.lines + 2)
        else:
            lines = [
                line for line in range(plan.lines)
                if not run.refusal(run.practice_worker(line), line)
            ]
            if lean:
                liked = [line for line in lines if run.running[line] == (lean == 1)]
                if liked and not chance.one_in(4):
                    lines = liked
            line = chance.pick(lines)
            worker = run.worker_of[line] if run.running[line] else chance.pick(run.idle())
        choices.append((worker, line))
        run.choose(worker, line)
    if strays and len(choices) < most:
        # What comes after the end: 11, and 10 and 26 before it.
        choices += [(0, 0), (workers - 1, plan.lines - 1), (0, plan.lines), (workers, 0)]
    return choices


def program_input(workers, choices):
    return bytes([workers]) + bytes(number for choice in choices for number in choice)
