"""The plan file: reading it with the checks in the paper's order, and writing it."""

from dataclasses import dataclass, field

SERIAL = 83
PARALLEL = 80
TRAILER = 12
LONGEST_FILE = 32796
MOST_PIPES = 16
MOST_LINES = 32
MOST_TOKENS = 4096
MOST_LISTED = 16
MOST_LISTED_TOGETHER = 8192
EDITION = 1


class Refused(Exception):
    """The engine says no; `number` is the paper's number for it."""

    def __init__(self, number):
        super().__init__(f"refused with {number}")
        self.number = number


@dataclass
class Plan:
    pipes: list  # one bool for each pipe, True if serial
    lines: int
    tokens: int
    records: list = field(default_factory=list)  # pairs (token, [numbers])
    # Where the pipe bytes start. The records alone fix it, so it is worked
    # out here when it is not given, and it plays no part in comparing.
    start: int = field(default=-1, compare=False)

    def __post_init__(self):
        if self.start < 0:
            self.start = sum(4 + 2 * len(numbers) for _, numbers in self.records)


def field_at(data, at):
    """Two bytes, unsigned, low byte first."""
    return data[at] + 256 * data[at + 1]


def two_bytes(number):
    return bytes([number % 256, number // 256])


def read(data):
    """The plan in these bytes; raises Refused with 1 to 7."""
    length = len(data)
    if length < TRAILER or length > LONGEST_FILE:
        raise Refused(1)

    trailer = length - TRAILER
    start, pipe_count, lines, tokens, record_count, edition = (
        field_at(data, trailer + 2 * i) for i in range(6)
    )
    if start + pipe_count + TRAILER != length:
        raise Refused(2)

    if edition != EDITION:
        raise Refused(3)
    if not 1 <= pipe_count <= MOST_PIPES:
        raise Refused(3)
    if not 1 <= lines <= MOST_LINES:
        raise Refused(3)
    if tokens > MOST_TOKENS:
        raise Refused(3)

    pipe_bytes = data[start:start + pipe_count]
    for byte in pipe_bytes:
        if byte != SERIAL and byte != PARALLEL:
            raise Refused(4)
    if pipe_bytes[0] != SERIAL:
        raise Refused(4)

    records = read_records(data[:start], tokens)
    # The test for R comes after every record has been looked at.
    if len(records) != record_count:
        raise Refused(5)

    return Plan([byte == SERIAL for byte in pipe_bytes], lines, tokens, records, start)


def read_records(data, tokens):
    """All records in these bytes, which they must fill."""
    records = []
    at = 0
    total = 0
    token_before = -1
    while at < len(data):
        if at + 2 > len(data):
            raise Refused(5)
        token = field_at(data, at)
        if token >= tokens or token <= token_before:
            raise Refused(5)
        if at + 4 > len(data):
            raise Refused(5)
        count = field_at(data, at + 2)
        if not 1 <= count <= MOST_LISTED:
            raise Refused(5)
        end = at + 4 + 2 * count
        if end > len(data):
            raise Refused(5)

        total += count
        if total > MOST_LISTED_TOGETHER:
            raise Refused(7)

        numbers = []
        for place in range(at + 4, end, 2):
            number = field_at(data, place)
            if numbers and number <= numbers[-1]:
                raise Refused(5)
            if number == token:
                raise Refused(6)
            numbers.append(number)

        records.append((token, numbers))
        token_before = token
        at = end
    return records


def encode(plan):
    """The one file of a plan. Nothing is checked here."""
    data = bytearray()
    for token, numbers in plan.records:
        data += two_bytes(token)
        data += two_bytes(len(numbers))
        for number in numbers:
            data += two_bytes(number)
    start = len(data)
    data += bytes(SERIAL if serial else PARALLEL for serial in plan.pipes)
    for number in (start, len(plan.pipes), plan.lines, plan.tokens, len(plan.records), EDITION):
        data += two_bytes(number)
    return bytes(data)
