"""Cells made by chance: as a plan needs them, and files with a damage."""

from console import CELL, LONGEST_CELLS, cells_bytes
from rounding import LARGEST_CELL

FIT = "as many as tokens"
FEWER = "too few"
MORE = "too many"
TOO_LARGE = "one too large"
PART = "part of a cell behind the last"
CUT = "the last one cut off"
EMPTY = "none at all"
DAMAGES = (FIT, FEWER, MORE, TOO_LARGE, PART, CUT, EMPTY)
# Those that a run can be opened with come more often.
OFTEN = DAMAGES + 5 * (FIT,) + (PART,)


def random_cells(chance, many):
    """So many cells of one of several manners, none too large."""
    most = chance.pick([1, 4, 9, 100, 70000, LARGEST_CELL])
    if chance.one_in(6):
        return [most] * many
    return [chance.pick([0, most, chance.between(0, most), chance.between(0, most)]) for _ in range(many)]


def too_large(chance, cell):
    """One past the limit, one that is small without its high bytes, or any."""
    above = LARGEST_CELL + 1
    return chance.pick([above, above, cell + (chance.between(1, 255) << 24), 2**31, 2**32 - 1,
                        chance.between(above, 2**32 - 1)])


def any_cells(chance, tokens):
    """A file of cells for so many tokens, and what was done to it."""
    done = chance.pick(OFTEN)
    cells = random_cells(chance, tokens)
    if done in (FEWER, CUT, TOO_LARGE) and not tokens:
        done = EMPTY
    if done == FEWER:
        del cells[chance.pick([0, tokens - 1, tokens - 1, chance.below(tokens)]):]
    elif done == MORE:
        cells += [chance.below(9)] * chance.pick([1, 1, 1, 2, 256, LONGEST_CELLS // CELL.size, 65536])
    elif done == TOO_LARGE:
        at = chance.pick([0, tokens - 1, chance.below(tokens)])
        cells[at] = too_large(chance, cells[at])
    data = cells_bytes(cells)
    if done == PART:
        data += bytes(chance.pick([0, 255, chance.below(256)]) for _ in range(chance.between(1, CELL.size - 1)))
    elif done == CUT:
        data = data[:-chance.between(1, CELL.size - 1)]
    elif done == EMPTY:
        data = b""
    return data, done
