"""Journals: events as records of 11 bytes, and the marking of a written one."""

import struct

import plan_file
from plan_file import MOST_PIPES, MOST_TOKENS, Refused
from run import LENT, REFUSED, STOPPED, Run

# A record's fields: kind, a byte; line, pipe, token, place and worker, two bytes each, low byte first.
FIELDS = ("kind", "line", "pipe", "token", "place", "worker")
FORM = struct.Struct("<B5H")
RECORD = FORM.size
# A start and a finish of every token at every pipe, and the stop.
MOST_EVENTS = 2 * MOST_TOKENS * MOST_PIPES + 1
# What is read of a file: a record more, so that a journal past every end is seen to be one.
LONGEST_JOURNAL = RECORD * (MOST_EVENTS + 1)

OTHER_EVENT = 20

COMPLETE = "complete"
SO_FAR = "correct so far"
WRONG = "wrong"


# Records.

def record_of(event):
    """The six numbers of an event; a stop has 0 in pipe, token and place."""
    kind, line, *step, worker = event
    return (ord(kind), line, *((0, 0, 0) if kind == STOPPED else step), worker)


def choice_of(record):
    """The worker and line that a record names."""
    return record[-1], record[1]


def journal_bytes(records):
    return b"".join(FORM.pack(*record) for record in records)


def records_in(data):
    """The whole records in these bytes; a shorter rest is ignored."""
    return list(FORM.iter_unpack(data[:len(data) // RECORD * RECORD]))


def journal_of(plan, workers, choices):
    """The records of a list of choices, and the run they leave; refused ones are not written."""
    run = Run(plan, workers)
    answers = [run.choose(*choice) for choice in choices]
    return [record_of(answer) for answer in answers if answer[0] != REFUSED], run


# Marking.

def accept(run, record):
    """Makes the choice that a record names if that gives just this event.

    0, or else the refusal; the event turned down is not made.
    """
    event = run.offer(*choice_of(record))
    if event[0] == REFUSED:
        return event[1]
    if record_of(event) != tuple(record):
        return OTHER_EVENT
    run.choose(*choice_of(record))
    return 0


def mark(plan, workers, records, lent=LENT):
    """The verdict on a journal over these plan bytes, and the run as it was left.

    Verdicts: (COMPLETE,), (SO_FAR,), (WRONG, index, number), and (REFUSED, number) by
    an opening that is refused, with None for the run.
    """
    try:
        run = Run(plan_file.read(plan), workers)
        if lent < LENT:
            raise Refused(9)
    except Refused as refused:
        return (REFUSED, refused.number), None
    for at, record in enumerate(records):
        number = accept(run, record)
        if number:
            return (WRONG, at, number), run
    return (COMPLETE if run.ended else SO_FAR,), run


def verdict_line(verdict):
    return " ".join(str(word) for word in verdict)
