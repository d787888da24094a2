"""Journals made by chance: of real runs, as they are and damaged."""

import makers
from journal import FIELDS, RECORD, choice_of, journal_bytes, journal_of
from run import FINISHED, STARTED, STOPPED, Run

LETTERS = tuple(ord(kind) for kind in (STARTED, FINISHED, STOPPED))
STOP = ord(STOPPED)
# Letters that are no kind.
NO_LETTERS = tuple(b"sfxREO?\0\1\xd3\xff")


# Runs.

def random_workers(chance):
    return chance.pick([1, 1, 2, 2, 3, 4, 31, 32, chance.between(1, 32)])


def random_choices(chance, plan, workers, most):
    """At most so many choices of a run, mostly up to its end; refused ones are among them."""
    manner = chance.below(4)
    if manner == 0:
        return makers.random_list(chance, plan, workers, most, past=2)
    if manner == 1:
        return makers.one_worker_list(plan)[:most]
    return makers.allowed_list(chance, plan, workers, most, strays=chance.pick([0, 4]))


def random_journal(chance, plan, most):
    """W and the records of a random run over this plan, whole or cut off."""
    workers = random_workers(chance)
    records, _ = journal_of(plan, workers, random_choices(chance, plan, workers, most))
    if chance.one_in(3):
        # Often just before the end, where a run may have stopped and has not ended.
        left = chance.pick([chance.between(0, len(records)), len(records) - chance.between(1, 4)])
        records = records[:max(0, left)]
    return workers, records


# Damages: each makes records of records, of which there is at least one.

def other_number(chance, number, others):
    """Another number of 16 bits: a near one, one of these, one that differs in its high byte, or any."""
    near = [number + 1, number - 1, 0, 65535, chance.below(65536)]
    pool = chance.pick([near, others, [number ^ 256, number ^ 32768]])
    return chance.pick([other for other in pool if 0 <= other <= 65535 and other != number] or [number ^ 1])


def changed(records, at, field, value):
    record = list(records[at])
    record[field] = value
    return [*records[:at], tuple(record), *records[at + 1:]]


def other_field(field):
    """The damage of one field that is a number."""
    def damage(chance, records):
        at = chance.below(len(records))
        others = [record[field] for record in records[max(0, at - 8):at + 9]]
        return changed(records, at, field, other_number(chance, records[at][field], others))
    return damage


def busy_worker(chance, records):
    """A start or stop by a worker who runs another line, where there is one."""
    busy, found = set(), []
    for at, record in enumerate(records):
        if record[0] == ord(FINISHED):
            busy.discard(record[-1])
            continue
        if busy:
            found.append((at, chance.pick(sorted(busy))))
        if record[0] == ord(STARTED):
            busy.add(record[-1])
    if not found:
        return records
    at, worker = chance.pick(found)
    return changed(records, at, FIELDS.index("worker"), worker)


def stops_in(records):
    return [at for at, record in enumerate(records) if record[0] == STOP]


def some_letter(chance, records):
    """An index, not too seldom that of the stop, of which there is one at most."""
    stops = stops_in(records)
    return stops[0] if stops and chance.one_in(4) else chance.below(len(records))


def other_letter(chance, records):
    at = some_letter(chance, records)
    return changed(records, at, 0, chance.pick([kind for kind in LETTERS if kind != records[at][0]]))


def no_letter(chance, records):
    at = some_letter(chance, records)
    letter = records[at][0] + 32 if chance.one_in(2) else chance.pick(NO_LETTERS)
    return changed(records, at, 0, letter)


def exchanged(chance, records):
    at = chance.below(max(1, len(records) - 1))
    return records[:at] + records[at:at + 2][::-1] + records[at + 2:]


def dropped(chance, records):
    at = chance.below(len(records))
    return records[:at] + records[at + 1:]


def doubled(chance, records):
    at = chance.below(len(records))
    # Just behind itself, or later.
    behind = chance.pick([at + 1, chance.between(at + 1, len(records))])
    return records[:behind] + [records[at]] + records[behind:]


def one_more(chance, records):
    """A record behind the last one: any of these, a stop, or any numbers."""
    last = records[-1]
    any_record = (chance.pick(LETTERS), *(chance.pick([0, 1, chance.below(65536)]) for _ in FIELDS[1:]))
    stop = (STOP, chance.below(3), 0, 0, 0, last[-1])
    return records + [chance.pick([last, records[0], chance.pick(records), stop, any_record])]


def stop_with_numbers(chance, records):
    """The stop, or a last one put in, with a number where a stop has 0."""
    if not stops_in(records):
        records = records + [(STOP, chance.below(3), 0, 0, 0, records[-1][-1])]
    field = chance.between(2, 4)
    return changed(records, stops_in(records)[0], field, chance.pick([1, 2, 256, 65535]))


AS_IT_WAS = "as it was"
EMPTY = "none at all"
PART = "part of a record at its end"
REFUSED_CHOICE = "a refused choice written down"
OTHER_W = "another W"
BY_RECORDS = {
    **{f"another {name}": other_field(field) for field, name in enumerate(FIELDS) if field},
    "a busy worker": busy_worker,
    "another letter": other_letter,
    "a letter that is no kind": no_letter,
    "neighbours exchanged": exchanged,
    "a record left out": dropped,
    "a record twice": doubled,
    "a record more": one_more,
    "a stop with numbers": stop_with_numbers,
}
DAMAGES = (AS_IT_WAS, EMPTY, PART, REFUSED_CHOICE, OTHER_W, *BY_RECORDS)
# Those with the most that may follow come more often, and one that many runs have no place for.
OFTEN = DAMAGES + 2 * (AS_IT_WAS, REFUSED_CHOICE, "a record more", "a busy worker")


def refused_choice(chance, plan, workers, records):
    """The journal with a record of a choice that is refused there, right but for that."""
    at = len(records) if chance.one_in(3) else chance.between(0, len(records))
    run = Run(plan, workers)
    for record in records[:at]:
        run.choose(*choice_of(record))
    choices = [
        (worker, line) for line in range(plan.lines + 1) for worker in range(workers + 1)
        if run.refusal(worker, line)
    ]
    # One of each reason that there is, so that none is rare; 26 has two.
    by_reason = {}
    for worker, line in chance.shuffled(choices):
        by_reason[run.refusal(worker, line), worker >= workers] = worker, line
    worker, line = by_reason[chance.pick(sorted(by_reason))]
    pipe, carried, kind = 0, None, STARTED
    if line < plan.lines:
        pipe, carried = run.at[line], run.carries[line]
        kind = FINISHED if run.running[line] else STARTED
    token, place = carried or (run.tables.count, run.tables.placed)
    return records[:at] + [(ord(kind), line, pipe, token, place, worker)] + records[at:]


def damaged(chance, plan, workers, records):
    """A journal file, the W to mark it with, and what was done to it."""
    done = chance.pick(OFTEN)
    as_it_was = records
    if done == EMPTY:
        return b"", workers, done
    if done == PART:
        part = journal_bytes([chance.pick(records or [(0,) * len(FIELDS)])])
        return journal_bytes(records) + part[:chance.between(1, RECORD - 1)], workers, done
    if done == REFUSED_CHOICE:
        records = refused_choice(chance, plan, workers, records)
    elif done == OTHER_W:
        workers = chance.pick([workers - 1, workers + 1, 1, 2, 32])
    elif done in BY_RECORDS and records:
        records = BY_RECORDS[done](chance, records)
    # Some records have no such damage.
    if records == as_it_was and done != OTHER_W:
        done = AS_IT_WAS
    return journal_bytes(records), workers, done


def any_journal(chance, plan=None, most=300):
    """The same of a random run over this plan, or over a small one."""
    plan = plan or makers.random_plan(chance)
    return damaged(chance, plan, *random_journal(chance, plan, most))
