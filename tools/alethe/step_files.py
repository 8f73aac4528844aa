"""Step files that hold many steps over the terms that they reach.

    files, spots = packed(pool, [(rule, place), ..])      a spot is the file's index and the step's number in it, from 1
    file.tags, file.values, file.steps, file.bytes()
    size(pool, reached(pool, place))                      the cells of a term and its parts

Rule 3 builds terms after the count. A file leaves as much room as the largest of its steps takes alone; a step that does not have
it alone stands alone. So a step is answered as in a file of its own.
"""
from pools.packed_pool import step_file
from random_inputs.limit_steps import new_cells
from references.reference import LIMIT, kinds_of
from references.reference_steps import MOST_STEPS

QNT_CNF = 3


class StepFile:
    def __init__(self):
        self.tags, self.values, self.steps, self.places, self.room = [], [], [], {}, 0

    def take(self, pool, parts):
        """Copies headers, operands before what holds them."""
        for p in parts:
            tag, count = pool.tags[p], pool.values[p]
            cells = pool.values[p + 1:p + 1 + count]
            kinds = kinds_of(tag, count)
            self.places[p] = len(self.tags)
            self.tags += [tag] + [0] * count
            self.values += [count, *(cell if kind == '#' else self.places[cell] for kind, cell in zip(kinds, cells))]

    def takes(self, pool, parts, room):
        new = size(pool, [p for p in parts if p not in self.places])
        return len(self.tags) + new + max(room, self.room) <= LIMIT and len(self.steps) < MOST_STEPS

    def add(self, pool, parts, rule, place, room):
        self.take(pool, [p for p in parts if p not in self.places])
        self.steps.append((rule, self.places[place]))
        self.room = max(room, self.room)

    def bytes(self):
        return step_file(self.tags, self.values, self.steps)


def reached(pool, place):
    """The places of a term's parts and sorts and its own, in order; Bool is always there."""
    found, stack = {0, place}, [place]
    while stack:
        p = stack.pop()
        count = pool.values[p]
        for kind, cell in zip(kinds_of(pool.tags[p], count), pool.values[p + 1:p + 1 + count]):
            if kind != '#' and cell not in found:
                found.add(cell)
                stack.append(cell)
    return sorted(found)


def alone(pool, parts, rule, place):
    file = StepFile()
    file.add(pool, parts, rule, place, 0)
    return file


def room_for(pool, parts, place):
    """The cells that rule 3 builds for a step alone."""
    file = alone(pool, parts, QNT_CNF, place)
    return new_cells(file.tags, file.values, file.places[place])


def size(pool, parts):
    return sum(1 + pool.values[p] for p in parts)


def packed(pool, steps):
    """The spot of a step is None where its terms do not fit into a file."""
    files, spots = [], []
    for rule, place in steps:
        parts = reached(pool, place)
        if size(pool, parts) > LIMIT:
            spots.append(None)
            continue
        room = room_for(pool, parts, place) if rule == QNT_CNF else 0
        if not files or not files[-1].takes(pool, parts, room):
            files.append(StepFile())
        files[-1].add(pool, parts, rule, place, room)
        spots.append((len(files) - 1, len(files[-1].steps)))
    return files, spots
