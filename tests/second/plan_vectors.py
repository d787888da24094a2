"""The plan files among the stored vectors, and the line expected for each."""

import plan_file
from cases import CASES
from chance import Chance
from makers import (
    damaged,
    longest_plan,
    full_records,
    big_pipes,
    plan_with_total,
    random_plan,
    raw_file,
    raw_record,
    third_records,
)
from plan_file import Plan, Refused, encode, two_bytes


def expected_line(data):
    try:
        plan = plan_file.read(data)
    except Refused as refused:
        return f"R {refused.number}\n"
    return (
        f"H {plan.start} {len(plan.pipes)} {plan.lines} {plan.tokens} {len(plan.records)}\n"
    )


def stored(files):
    return b"".join(two_bytes(len(data)) + data for data in files)


def expected(files):
    return "".join(expected_line(data) for data in files).encode("ascii")


def plan_files():
    """All of them, in a fixed order."""
    return (
        case_files()
        + trailer_files()
        + length_files()
        + pipe_files()
        + record_files()
        + total_files()
        + pair_files()
        + random_files()
    )


def case_files():
    files = [encode(case.plan()) for case in CASES.values()]
    files += [encode(CASES["b"].plan(lines=3)), encode(CASES["b"].plan([True] * 3))]
    return files


def trailer_files():
    files = []
    for pipes in (0, 1, 2, 15, 16, 17, 18):
        files.append(raw_file(pipes=b"S" * pipes))
    for lines in (0, 1, 2, 31, 32, 33, 256, 288, 65535):
        files.append(raw_file(lines=lines))
    for tokens in (0, 1, 4095, 4096, 4097, 8192, 65535):
        files.append(raw_file(tokens=tokens))
    for edition in (0, 1, 2, 256, 257, 65535):
        files.append(raw_file(edition=edition))
    # All three at their highest.
    files.append(raw_file(pipes=b"S" * 16, lines=32, tokens=4096))

    record = raw_record(0, [1])
    for r in (0, 1, 2, 256, 257, 65535):
        files.append(raw_file(record, r=r))
    for r in (1, 65535):
        files.append(raw_file(r=r))
    for a in (0, 5, 7, 6 + 256, 65535):
        files.append(raw_file(record, r=1, a=a))
    for p in (0, 2, 257, 65535):
        files.append(raw_file(record, r=1, p=p))
    # A and P both wrong, but right together: the pipe bytes then start elsewhere.
    files.append(raw_file(record, r=1, a=5, p=2))
    files.append(raw_file(record, pipes=b"SS", r=1, a=7, p=1))
    files.append(raw_file(record + b"S", pipes=b"SS", r=1, a=6, p=3))
    # A + P + 12 right only where 65,536 is lost.
    for size in (13, 14, 28, 40):
        for p in (1, 14, 16):
            a = 65536 + size - p - 12
            if a < 65536:
                files.append(raw_file(pipes=b"S" * (size - 12), a=a, p=p))
    # The same where P, not A, is past the file.
    files.append(raw_file(pipes=b"S" * 4, a=8, p=65532))
    return files


def length_files():
    valid = raw_file()
    files = [valid[len(valid) - size:] for size in range(14)]
    files += [valid[:size] for size in range(14)]
    # 12 bytes are enough for 1 and for 2, but leave no pipe: 3.
    files.append(raw_file(pipes=b""))
    files.append(raw_file(pipes=b"", a=1))
    files.append(bytes(11))
    files.append(bytes(12))
    files.append(bytes(13))

    longest = encode(longest_plan())
    files.append(longest)  # 32,796 bytes
    files.append(b"\0" + longest)  # 32,797 bytes
    body, rest = longest[:32768], longest[32768:]
    # 32,797 bytes with A + P + 12 in order.
    files.append(body + raw_file(pipes=b"S" * 17, lines=32, tokens=4096, r=4096, a=32768))
    # 32,796 bytes where A, or R, or a byte near the end, is wrong.
    files.append(body + rest[:16] + two_bytes(32767) + rest[18:])
    files.append(body + rest[:24] + two_bytes(4095) + rest[26:])
    files.append(body + rest[:15] + b"Q" + rest[16:])
    # The last number as its own token: 6, and with the one before it: 5.
    files.append(body[:-2] + two_bytes(4095) + rest)
    files.append(body[:-2] + body[-4:-2] + rest)
    # Nearly as long, and orders everyone.
    files.append(encode(Plan(big_pipes(), 32, 4096, full_records())))
    files.append(encode(Plan(big_pipes(), 32, 4096, third_records())))
    # The most that a length of two bytes can say.
    files.append(bytes(65523) + raw_file(pipes=b"", a=65523))
    return files


def pipe_files():
    files = []
    for byte in (0, 79, 80, 81, 82, 83, 84, 115, 112, 255):
        files.append(raw_file(pipes=bytes([byte])))
        files.append(raw_file(pipes=bytes([83, byte])))
        files.append(raw_file(pipes=bytes([83, 80, byte, 83])))
    files.append(raw_file(pipes=b"PS"))
    files.append(raw_file(pipes=b"PP"))
    files.append(raw_file(pipes=b"SP"))
    files.append(raw_file(pipes=b"S" + b"P" * 15))
    files.append(raw_file(pipes=b"S" * 15 + b"Q"))
    files.append(raw_file(pipes=b"S" * 15 + b"P"))
    return files


def record_files():
    files = []
    # Token below N, and N itself and more.
    for token in (0, 18, 19, 20, 21, 256, 65535):
        files.append(raw_file(raw_record(token, [3]), tokens=20, r=1))
    for tokens in (0, 1):
        files.append(raw_file(raw_record(0, [3]), tokens=tokens, r=1))
    files.append(raw_file(raw_record(4095, [4094]), tokens=4096, r=1))
    files.append(raw_file(raw_record(4096, [4094]), tokens=4096, r=1))
    # Count: too low, right and too high, with the numbers for it there.
    for count in (0, 1, 2, 15, 16, 17, 18):
        files.append(raw_file(raw_record(1, list(range(2, 2 + count))), tokens=40, r=1))
    for count in (0, 1, 3, 16, 17, 256, 258, 32768, 32770, 65535):
        files.append(raw_file(raw_record(1, [2, 3], count), tokens=40, r=1))
        # The same where a valid record follows.
        files.append(
            raw_file(raw_record(1, [2, 3], count) + raw_record(5, [9]), tokens=40, r=2)
        )
    # A listed number may be N or more.
    for number in (0, 1, 18, 19, 20, 21, 4095, 4096, 65534, 65535):
        files.append(raw_file(raw_record(7, [number]), tokens=20, r=1))
    files.append(raw_file(raw_record(0, list(range(65520, 65536))), tokens=20, r=1))

    # Cut short at each byte, A going along; R as it was and as it could be.
    whole = raw_record(1, [2, 3]) + raw_record(4, [0, 6, 300]) + raw_record(5, [1])
    for size in range(len(whole) + 1):
        for r in (3, 2, 1, 0):
            files.append(raw_file(whole[:size], tokens=20, r=r))
    # Bytes too many, at the end of the records.
    for extra in range(1, 6):
        files.append(raw_file(whole + bytes([6] * extra), tokens=2000, r=3))
    files.append(raw_file(bytes(3) + whole, tokens=20, r=3))

    # Records that do not ascend.
    for tokens in ((3, 3), (4, 3), (1, 2), (2, 1, 3), (1, 3, 2), (1, 2, 2), (1, 3, 1), (0, 1, 0)):
        data = b"".join(raw_record(token, [9]) for token in tokens)
        files.append(raw_file(data, tokens=20, r=len(tokens)))
    # High bytes matter for the ascent.
    files.append(raw_file(raw_record(255, [9]) + raw_record(256, [9]), tokens=300, r=2))
    files.append(raw_file(raw_record(256, [9]) + raw_record(255, [9]), tokens=300, r=2))

    # Numbers equal or descending, at the first, middle and last.
    for numbers in (
        [3, 3], [4, 3], [0, 0], [3, 4, 4], [3, 3, 4], [4, 3, 5], [3, 5, 4], [5, 4, 3],
        [3, 4, 5, 5], [3, 4, 5, 6], [255, 256], [256, 255], [65535, 65535], [65535, 0],
        [0, 65535], [0, 1, 2, 3, 4, 5, 6, 8, 9, 10, 11, 12, 13, 14, 16, 15],
    ):
        files.append(raw_file(raw_record(7, numbers), tokens=20, r=1))

    # Self listed: alone, first, in the middle, last; 6 only where no ascent
    # fault comes on the same or an earlier number.
    for numbers in (
        [7], [7, 8], [6, 7], [6, 7, 8], [0, 1, 2, 3, 7], [7, 8, 9, 10],
        [6, 6, 7], [6, 5, 7], [8, 7], [8, 7, 9], [7, 7], [7, 6], [7, 8, 8], [7, 9, 8],
        [6, 7, 7], [6, 7, 6], [9, 8, 7], [8, 7, 7], [5, 6, 6, 7], [5, 7, 6, 6],
        [263], [7 + 256], [0, 7 + 256],
    ):
        files.append(raw_file(raw_record(7, numbers), tokens=20, r=1))
    files.append(raw_file(raw_record(0, [0]), tokens=20, r=1))
    files.append(raw_file(raw_record(0, [1]) + raw_record(19, [19]), tokens=20, r=2))
    files.append(raw_file(raw_record(4095, [4095]), tokens=4096, r=1))

    # The same number is no fault in two records.
    files.append(raw_file(raw_record(7, [8, 9]) + raw_record(8, [7, 9]), tokens=20, r=2))
    # R one more, one less.
    for r in (0, 1, 2, 3, 4):
        files.append(raw_file(raw_record(7, [8, 9]) + raw_record(8, [7, 9]), tokens=20, r=r))
    # A record for every token.
    every = b"".join(raw_record(token, [60000]) for token in range(20))
    for r in (19, 20, 21):
        files.append(raw_file(every, tokens=20, r=r))
    return files


def total_files():
    files = []
    at_limit = plan_with_total(8192)
    data = encode(at_limit)
    body = data[:at_limit.start]
    files.append(data)
    files.append(encode(plan_with_total(8191)))
    # One past, in a further record.
    files.append(encode(plan_with_total(8193)))
    short = plan_with_total(8177)
    files.append(encode(short))
    short_body = encode(short)[:short.start]

    def after(record, r=513, of=body):
        return raw_file(of + record, tokens=4096, r=r)

    # The record that passes the total has further faults: 7 comes first ...
    files.append(after(raw_record(600, [700, 700])))
    files.append(after(raw_record(600, [700, 600])))
    files.append(after(raw_record(600, [600])))
    files.append(after(raw_record(600, [700]), r=0))
    files.append(after(raw_record(600, [700]) + raw_record(500, [1])))
    # ... but it is a bad token, a bad count or cut short before it is that.
    files.append(after(raw_record(5, [700])))
    files.append(after(raw_record(4096, [700])))
    files.append(after(raw_record(600, [], 0)))
    files.append(after(raw_record(600, list(range(700, 717)), 17)))
    for size in (1, 3, 4, 6, 7):
        files.append(after(raw_record(600, [700, 701])[:size]))
    # From 8,177 a record of 15 reaches 8,192 exactly, one of 16 passes it.
    files.append(after(raw_record(600, list(range(700, 715))), of=short_body))
    files.append(after(raw_record(600, list(range(700, 716))), of=short_body))
    # A fault in a record before the one that passes it.
    files.append(raw_file(raw_record(0, [0]) + body[36:] + raw_record(600, list(range(1, 17)))
                          + raw_record(601, [1]), tokens=4096, r=514))
    return files


def pair_files():
    """Two faults at once, adjacent in the order of checks and further apart.

    The first of a pair rules; the other is there to be found by an engine that
    checks in another order.
    """
    ok = raw_record(1, [2, 3])
    self_listed = raw_record(5, [5])
    no_ascent = raw_record(5, [9, 8])
    bad_token = raw_record(20, [1])
    bad_count = raw_record(5, [], 0)
    cut = raw_record(5, [6, 7])[:-1]
    bad_records = [self_listed, no_ascent, bad_token, bad_count, cut]

    def make(record=b"", **rest):
        return raw_file(ok + record, **{"tokens": 20, "r": 2, **rest})

    files = []
    # 1 and 2; 1 and 3.
    files.append(bytes(32797))
    files.append(raw_file(bytes(32784), a=1))
    files.append(raw_file(bytes(32784), edition=2))
    files.append(make()[-11:])
    # 2 and 3.
    for wrong in ({"edition": 2}, {"lines": 0}, {"lines": 33}, {"tokens": 4097}):
        files.append(make(a=9, **wrong))
        files.append(make(p=2, **wrong))
    files.append(raw_file(ok, pipes=b"S" * 17, tokens=20, r=1, a=9))
    files.append(raw_file(ok, pipes=b"S", tokens=20, r=1, p=17))
    # 2 and 4, 2 and 5.
    files.append(make(pipes=b"P", a=9))
    files.append(make(self_listed, a=9))
    # 3 and 4, and the parts of 3 among themselves.
    for wrong in ({"edition": 0}, {"lines": 0}, {"lines": 33}, {"tokens": 4097}):
        files.append(make(pipes=b"P", **wrong))
        files.append(make(pipes=b"SQ", **wrong))
        files.append(make(bad_token, **wrong))
        files.append(make(self_listed, **wrong))
    files.append(raw_file(ok, pipes=b"P" * 17, tokens=20, r=1))
    files.append(make(lines=0, edition=0))
    # 4 and each fault of records.
    for record in bad_records:
        for pipes in (b"P", b"SQ", b"PS"):
            files.append(make(record, pipes=pipes))
    files.append(make(pipes=b"Q", r=9))
    files.append(make(pipes=b"QP"))
    # Faults within one record, each with the next in its order.
    files.append(make(raw_record(20, [], 0)))
    files.append(make(raw_record(20, [20])))
    files.append(make(raw_record(1, [1])))
    files.append(make(raw_record(0, [0])))
    files.append(make(raw_record(5, [5], 17)))
    files.append(make(raw_record(5, [5], 2)))  # cut short and self
    files.append(make(raw_record(5, [9, 8, 5], 4)))
    files.append(make(raw_record(5, [9, 5])))  # ascent then self on one number
    files.append(make(raw_record(5, [5, 4])))  # self then ascent on the next
    files.append(make(raw_record(5, [4, 5, 5])))
    # Faults in two records: the earlier record rules.
    for first in bad_records:
        for second in (raw_record(7, [7]), raw_record(7, [9, 8]), raw_record(20, [1]),
                       raw_record(7, [], 0), raw_record(7, [1])[:-1]):
            files.append(make(first + second, r=3))
    # A fault of a record and R wrong.
    for record in bad_records:
        for r in (0, 1, 3):
            files.append(make(record, r=r))
    # R right for what comes before a bad record, and the rest not looked at.
    files.append(make(self_listed + raw_record(6, [6]), r=1))
    return files


def random_files():
    chance = Chance(1001)
    files = []
    for number in range(300):
        if number % 10 == 9:
            plan = random_plan(chance, pipes=16, lines=32, tokens=60)
        else:
            plan = random_plan(chance)
        files.append(encode(plan))
    whole = list(files)
    for number in range(500):
        files.append(damaged(chance, chance.pick(whole)))
    return files
