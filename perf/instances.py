#!/usr/bin/env python3
"""Seeded instances for perf/run. usage: perf/instances.py FOLDER    writes each as NAME.txt (the text of tools/title.py) and NAME.sheet"""
import os
import random
import sys
from collections import namedtuple

sys.path.insert(0, os.path.join(os.path.dirname(os.path.abspath(__file__)), '..', 'tools'))
import title

STORES = ('bare', 'shelf:4096', 'shelf:65536')

# lines: the sheet's text; stores: those that it is searched over, and `plan` for the program itself; budget: how many nodes are opened at most, 0 where it is searched to its end;
# quick: whether --quick has it
Instance = namedtuple('Instance', 'name lines stores budget quick')


def instance(name, lines, budget=0, stores=STORES, quick=False):
    return Instance(name, lines, stores, budget, quick)


# ---- lines of a sheet

def voice(values):
    return 'voice ' + ' '.join(map(str, sorted(values)))


def different(voices):
    return 'different ' + ' '.join(map(str, voices))


def most(bound, terms):
    return f'most {bound}: ' + ' '.join(f'{factor}*{v}' for factor, v in terms)


def least(bound, terms):
    return most(-bound, [(-factor, v) for factor, v in terms])


def some(literals):
    return 'some ' + ' '.join(f'{v}{sign}{value}' for v, sign, value in literals)


def element(index, result, entries):
    return f'table {index} -> {result}: ' + ' '.join(map(str, entries))


# ---- families

def greatest_profit(weights, profits, limit):
    best = [0] * (limit + 1)
    for weight, profit in zip(weights, profits):
        for room in range(limit, weight - 1, -1):
            best[room] = max(best[room], best[room - weight] + profit)
    return best[limit]


def knapsack(items, largest, spread, seed):
    """Takes half of the weight, and asks for one more than the greatest profit. Profits are near the weights, so that bounds cut little."""
    rnd = random.Random(seed)
    weights = [rnd.randint(largest // 4, largest) for _ in range(items)]
    profits = [max(1, w + rnd.randint(-spread, spread)) for w in weights]
    limit = sum(weights) // 2
    wanted = greatest_profit(weights, profits, limit) + 1
    return [voice([0, 1])] * items + [most(limit, zip(weights, range(items))), least(wanted, zip(profits, range(items)))]


def pigeonhole(holes):
    return [voice(range(holes))] * (holes + 1) + [different(range(holes + 1))]


def colouring(vertices, edges, colours, seed):
    rnd = random.Random(seed)
    pairs = [(i, j) for i in range(vertices) for j in range(i + 1, vertices)]
    return [voice(range(colours))] * vertices + [different(pair) for pair in sorted(rnd.sample(pairs, edges))]


def band(vertices, edges, colours, width, seed):
    """Edges only between near vertices, and at the end one clique that is too large."""
    rnd = random.Random(seed)
    clique = range(vertices - colours - 1, vertices)
    near = [(i, j) for i in range(vertices - colours - 1) for j in range(i + 1, i + width + 1)]
    edges = sorted(rnd.sample(near, edges)) + [(i, j) for i in clique for j in clique if i < j]
    return [voice(range(colours))] * vertices + [different(pair) for pair in edges]


def queens(size, colours):
    """Each square gets a colour, and no line has one twice. The first row's are given."""
    squares = [(r, c) for r in range(size) for c in range(size)]
    lines = {}
    for r, c in squares:
        for name in (('row', r), ('column', c), ('down', r - c), ('up', r + c)):
            lines.setdefault(name, []).append(r * size + c)
    opening = [voice([c]) if r == 0 else voice(range(colours)) for r, c in squares]
    return opening + [different(line) for line in lines.values() if len(line) > 1]


def mixed(jobs, slots, bound, seed):
    """All four kinds: jobs in different slots, the cost of a job the entry of its slot, the costs together at most the bound, a second sum over slots, clauses."""
    rnd = random.Random(seed)
    costs = [[2 * slot + rnd.randint(0, 3) for slot in range(slots)] for _ in range(jobs)]
    clauses = []
    for _ in range(jobs):
        i, j = rnd.sample(range(jobs), 2)
        clauses.append([(i, '!=', rnd.randrange(slots)), (j, '!=', rnd.randrange(slots))])
    clauses.append([(v, '=', slot) for v, slot in zip(rnd.sample(range(jobs), 3), rnd.sample(range(slots), 3))])
    factors = [rnd.randint(1, 9) for _ in range(jobs)]
    lines = [voice(range(slots))] * jobs + [voice(set(c)) for c in costs] + [different(range(jobs))]
    lines += [element(i, jobs + i, c) for i, c in enumerate(costs)]
    lines += [most(bound, [(1, jobs + i) for i in range(jobs)]), most(sum(factors) * (slots - 1) * 11 // 20, zip(factors, range(jobs)))]
    return lines + [some(c) for c in clauses]


def console(seed, slack):
    """The largest title: 80 voices and 120 rows, 40 of them of 32 members, 8,000 bytes of rows. A placing is drawn first, and each row is one that it keeps, with so much slack in each sum;
    with a slack far below 0 the sums cannot all be kept."""
    rnd = random.Random(seed)
    table = [rnd.randrange(8) for _ in range(32)]
    lanes = rnd.sample(range(32), 14) + rnd.sample(range(32, 64), 26)
    placing = lanes + [table[lane] for lane in lanes[:14]] + [rnd.randint(1, 15) for _ in range(26)]
    instruments, voices = range(40), range(80)

    def total(size, sign):
        terms = [(rnd.randint(1, 9), v) for v in rnd.sample(voices, size)]
        value = sum(factor * placing[v] for factor, v in terms)
        return most(value + slack, terms) if sign > 0 else least(value - slack, terms)

    def clause(size):
        others = [(v, rnd.choice(['=', '!=']), rnd.randint(1, 15)) for v in rnd.sample(voices, size - 1)]
        v = rnd.choice(voices)
        return some(sorted(others + [(v, '=', placing[v])]))

    lines = [voice(range(32))] * 14 + [voice(range(24, 64))] * 26 + [voice(range(8))] * 14 + [voice(range(1, 16))] * 26
    lines += [different(sorted(rnd.sample(instruments, 32))) for _ in range(14)]
    lines += [element(i, 40 + i, table) for i in range(14)]
    lines += [total(32, sign) for sign in [1, -1] * 4] + [clause(32) for _ in range(4)]
    lines += [different(sorted(rnd.sample(instruments, 7))) for _ in range(30)]
    return lines + [total(7, rnd.choice([1, -1])) for _ in range(25)] + [clause(9) for _ in range(25)]


def ladder(voices, rows, members, kinds='ALCE'):
    """What a node costs by voices, rows and members: pigeons in the first nine voices and one hole too few, and rows beside them that take out no value that is needed, so that the tree is
    the same whatever their number and size."""
    rnd = random.Random(voices * 10000 + rows * 100 + members)
    holes, last = 8, range(voices * 2 // 3, voices)
    pigeons, lanes, free = range(holes + 1), range(voices * 2 // 3), range(holes + 1, voices)
    lines = [voice(range(holes))] * len(pigeons) + [voice(range(64))] * len(free) + [different(pigeons)]
    for i in range(rows - 1):
        kind = kinds[i % len(kinds)]
        # two free voices at least, which stay open, so that no sum and no clause takes a value out
        chosen = rnd.sample(free, 2) + rnd.sample(range(voices), members - 2)
        if kind == 'A':
            lines.append(different(sorted(rnd.sample(lanes, members))))
        elif kind == 'L':
            terms = [(rnd.choice([-1, 1]) * rnd.randint(1, 9), v) for v in chosen]
            top = sum(max(0, factor * (7 if v in pigeons else 63)) for factor, v in terms)
            lines.append(most(top - 1, terms))
        elif kind == 'C':
            lines.append(some([(v, '=' if v in pigeons else '!=', rnd.randrange(8)) for v in rnd.sample(chosen, members)]))
        else:
            lines.append(element(*rnd.sample(last, 2), range(members)))
    return lines


def instances():
    two, planned = ('bare', 'shelf:4096'), STORES + ('plan',)
    found = [
        instance('knapsack-20', knapsack(20, 20, 2, 1), quick=True),
        instance('knapsack-24', knapsack(24, 20, 2, 1)),
        instance('knapsack-26-wide', knapsack(26, 900, 90, 1), 500_000),
        instance('knapsack-28', knapsack(28, 20, 2, 1), 500_000, planned),
        instance('knapsack-32', knapsack(32, 20, 2, 1), 500_000),
        instance('pigeonhole-9', pigeonhole(9), quick=True),
        instance('pigeonhole-10', pigeonhole(10), 1_000_000),
        instance('band-36', band(36, 56, 3, 4, 1), quick=True),
        instance('band-60', band(60, 80, 3, 4, 1), 200_000),
        instance('colouring-36-4', colouring(36, 116, 4, 2)),
        instance('colouring-56-3', colouring(56, 110, 3, 2), quick=True),
        instance('queens-8-8', queens(8, 8), 100_000, quick=True),
        instance('queens-8-9', queens(8, 9), 100_000, planned),
        instance('mixed-8', mixed(8, 9, 61, 2), quick=True),
        # none below the least cost, which is 94
        instance('mixed-10', mixed(10, 11, 93, 2), stores=planned),
        instance('mixed-10-found', mixed(10, 11, 94, 2)),
        instance('console-found', console(5, 0), stores=planned),
        instance('console-none', console(2, -120), stores=planned, quick=True),
    ]
    for voices, rows, members in LADDER:
        found.append(instance(f'ladder-{voices}-{rows}-{members}', ladder(voices, rows, members), 50_000, two))
    for kind in 'ALCE':
        found.append(instance(f'ladder-48-60-8-{kind}', ladder(48, 60, 8, kind), 50_000, two))
    return found


# voices, rows and members: each of the three grows beside 48, 30 and 8
LADDER = [(24, 30, 8), (48, 30, 8), (80, 30, 8), (48, 15, 8), (48, 60, 8), (48, 120, 8), (48, 30, 4), (48, 30, 16), (48, 30, 32)]


def write(folder, some_instances):
    """Writes each as text and as a sheet, which is refused where it is not within the limits."""
    os.makedirs(folder, exist_ok=True)
    for it in some_instances:
        text = '\n'.join(it.lines) + '\n'
        made = title.write(text, it.name)
        with open(os.path.join(folder, it.name + '.txt'), 'w', encoding='utf-8') as file:
            file.write(text)
        with open(os.path.join(folder, it.name + '.sheet'), 'wb') as file:
            file.write(made)


if __name__ == '__main__':
    if len(sys.argv) != 2:
        sys.exit(__doc__)
    write(sys.argv[1], instances())
