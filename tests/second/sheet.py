"""The plain sheet of a plan, and the chain criterion for what stays deferred."""

from dataclasses import dataclass

from tables import Tables


@dataclass
class Sheet:
    order: list  # the tokens as written down
    place: dict  # the place of each of them
    line: dict  # the line of each of them
    stays: list  # the tokens that stay deferred, ascending


def plain_sheet(plan):
    """Steps until one finds no token; rule 4 comes at once after each order."""
    tables = Tables(plan)
    order, place, line = [], {}, {}
    while True:
        taken = tables.take()
        if taken is None:
            break
        token, k = taken
        order.append(token)
        place[token] = k
        line[token] = k % plan.lines
        tables.finish(token)
    return Sheet(order, place, line, tables.still_deferred())


def stays_by_chains(plan):
    """The tokens from which a chain meets a cycle or a number that never enters.

    A graph computation on the records alone, with no table and no order: a
    chain can meet a cycle or such a number exactly if it can reach one, so we
    go backwards from all of them.
    """
    lists = [[] for _ in range(plan.tokens)]
    for token, numbers in plan.records:
        lists[token] = numbers
    comes_from = [[] for _ in range(plan.tokens)]
    found = set(tokens_on_cycles(lists))
    for token, numbers in enumerate(lists):
        for number in numbers:
            if number >= plan.tokens:
                found.add(token)
            else:
                comes_from[number].append(token)
    open_tokens = sorted(found)
    while open_tokens:
        token = open_tokens.pop()
        for before in comes_from[token]:
            if before not in found:
                found.add(before)
                open_tokens.append(before)
    return sorted(found)


def tokens_on_cycles(lists):
    """Tokens that a chain leads back to: strongly connected parts above one.

    Tarjan's walk with a stack of our own, as chains may be 4,096 long. No token
    lists itself, so a part of one token has no cycle.
    """
    size = len(lists)
    index = [None] * size
    low = [0] * size
    on_stack = [False] * size
    stack, result = [], []
    next_index = 0
    for root in range(size):
        if index[root] is not None:
            continue
        index[root] = low[root] = next_index
        next_index += 1
        stack.append(root)
        on_stack[root] = True
        walk = [(root, iter(lists[root]))]
        while walk:
            token, rest = walk[-1]
            deeper = False
            for number in rest:
                if number >= size:
                    continue
                if index[number] is None:
                    index[number] = low[number] = next_index
                    next_index += 1
                    stack.append(number)
                    on_stack[number] = True
                    walk.append((number, iter(lists[number])))
                    deeper = True
                    break
                if on_stack[number]:
                    low[token] = min(low[token], index[number])
            if deeper:
                continue
            walk.pop()
            if walk:
                above = walk[-1][0]
                low[above] = min(low[above], low[token])
            if low[token] == index[token]:
                part = []
                while True:
                    member = stack.pop()
                    on_stack[member] = False
                    part.append(member)
                    if member == token:
                        break
                if len(part) > 1:
                    result.extend(part)
    return result
