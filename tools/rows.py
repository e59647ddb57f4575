#!/usr/bin/env python3
"""rows: writes what crates/printed_rows must print, worked out from the printed tables alone.

The tables below were typed from paper 01, that of single slopes from ROM 0.4-95 (document 000), and all held against it. Every value is reckoned with exact fractions
by the book's words: the row whose limits hold the ratio, the straight line between rows, one rounding to a thousandth with a
half away from zero. A row's number is its place in the printed table, and a fraction is in lowest terms by itself. Nothing
here is taken from, or run with, the proved code.

    tools/rows.py > crates/printed_rows/stdout
"""
from fractions import Fraction as Q

# h/b to, a/b to: wind 0 A B C D, wind 90 A B C D, local
WALLS = [
    (Q(1, 2), Q(3, 2), '70 -20 -50 -50', '-50 -50 70 -20', -80),
    (Q(1, 2), Q(4), '70 -25 -60 -60', '-50 -50 70 -10', -100),
    (Q(3, 2), Q(3, 2), '70 -25 -60 -60', '-60 -60 70 -25', -110),
    (Q(3, 2), Q(4), '70 -30 -70 -70', '-50 -50 70 -10', -110),
    (Q(6), Q(3, 2), '80 -25 -80 -80', '-80 -80 80 -25', -120),
    (Q(6), Q(4), '70 -40 -70 -70', '-50 -50 80 -10', -120),
]
# slope in degrees: wind 0 EF, wind 0 GH, wind 90 EG, wind 90 FH
GABLE = {
    Q(1, 2): {0: '-80 -40 -80 -40', 5: '-90 -40 -80 -40', 10: '-120 -40 -80 -60', 20: '-40 -40 -70 -60',
              30: '0 -40 -70 -60', 45: '30 -50 -70 -60', 60: '70 -60 -70 -60'},
    Q(3, 2): {0: '-80 -60 -100 -60', 5: '-90 -60 -90 -60', 10: '-110 -60 -80 -60', 20: '-70 -50 -80 -60',
              30: '-20 -50 -80 -80', 45: '20 -50 -80 -80', 60: '60 -50 -80 -80'},
    Q(6): {0: '-70 -60 -90 -70', 5: '-70 -60 -80 -80', 10: '-70 -60 -80 -80', 20: '-80 -60 -80 -80',
           30: '-100 -50 -80 -70', 40: '-20 -50 -80 -70', 50: '20 -50 -80 -70', 60: '50 -50 -80 -70'},
}
# E, L1, L2, by x/h or by degrees
STRAIGHT = '-70 -250 -200'
FLAT = {
    2: {Q(0): STRAIGHT},
    3: {Q('0.025'): '-70 -220 -180', Q('0.05'): '-70 -200 -160', Q('0.10'): '-70 -180 -140'},
    4: {Q('0.05'): '-40 -150 -180', Q('0.10'): '-30 -120 -140', Q('0.20'): '-30 -80 -80'},
    5: {Q(30): '-30 -150 -150', Q(45): '-40 -180 -190', Q(60): '-50 -190 -190'},
}
# degrees from, to: wind 0 EF GH, wind 45 EF GH, wind 90 EG FH, wind 135 EF GH, wind 180 EF GH
SINGLE = [
    (5, 10, '-100 -50 -100 -90 -100 -50 -90 -100 -50 -100'),
    (15, 15, '-90 -50 -100 -70 -100 -50 -60 -100 -30 -100'),
    (20, 20, '-80 -50 -100 -60 -90 -50 -50 -100 -20 -100'),
    (25, 25, '-70 -50 -100 -60 -80 -50 -30 -90 -10 -90'),
    (30, 30, '-50 -50 -100 -60 -80 -50 -10 -60 0 -60'),
]
SINGLE_WINDS = (0, 45, 90, 135, 180)
RANGE = {0: (0, 0), 1: (0, 60), 2: (0, 0), 3: (Q('0.025'), Q('0.10')), 4: (Q('0.05'), Q('0.20')), 5: (30, 90), 6: (5, 30)}


def thousandths(hundredths):
    """One rounding, a half going away from zero."""
    exact = abs(hundredths) * 10
    size = int(exact + Q(1, 2))
    return size if hundredths >= 0 else -size


def numbered(table):
    """Each part's rows in the printed order: the number, counted through all parts from 1, where it stands, its cells."""
    rows, count = {}, 0
    for part, printed in table.items():
        rows[part] = [(count + i, Q(at), cells.split()) for i, (at, cells) in enumerate(printed.items(), 1)]
        count += len(printed)
    return rows


GABLE_ROWS, FLAT_ROWS = numbered(GABLE), numbered(FLAT)
# the one row of straight eaves stands at 90 degrees of mansard too
FLAT_ROWS[5].append((FLAT_ROWS[2][0][0], Q(90), STRAIGHT.split()))


def on_line(rows, column, at):
    """The value met at `at`; then the last row up to there, the first from there on, and how far it is between them."""
    lower = max((row for row in rows if row[1] <= at), key=lambda row: row[1])
    upper = min((row for row in rows if row[1] >= at), key=lambda row: row[1])
    way = Q(0) if lower == upper else (at - lower[1]) / (upper[1] - lower[1])
    first, last = Q(lower[2][column]), Q(upper[2][column])
    return thousandths(first + way * (last - first)), (lower[0], upper[0], way)


def on_slope(column, at):
    """The same on a single slope, whose first row holds from 5 to 10 degrees."""
    for number, (start, end, cells) in enumerate(SINGLE, 1):
        if start <= at <= end:
            return thousandths(Q(cells.split()[column])), (number, number, Q(0))
    return on_line([(n, Q(end), cells.split()) for n, (start, end, cells) in enumerate(SINGLE, 1)], column, at)


def place_of_x(h, kind, x):
    """What the rows of the kind are read at."""
    return Q(x, h) if kind in (3, 4) else Q(x, 10) if kind in (1, 5, 6) else Q(x)


def fault(year, h, a, b, density, kind, x):
    """The building's. The table starts just over a square plan, and from year 3 on at it."""
    numbers = (h, a, b, density, kind, x)
    if any(abs(n) > 9999999 for n in numbers):
        return 1
    ranges = [(100, 30000)] * 3 + [(1000, 1500), (0, 6), (0, 30000)]
    if any(n < low or n > high for n, (low, high) in zip(numbers, ranges)):
        return 3
    if Q(h, b) > 6 or Q(a, b) < 1 or Q(a, b) > 4 or a == b and year < 3:
        return 4
    low, high = RANGE[kind]
    return 0 if low <= place_of_x(h, kind, x) <= high else 5


def outside(year, h, a, b, density, kind, x, direction, place):
    """A refusal, which is a pair of numbers; or a list of values, and its rows: lower, upper and the fraction of the way."""
    if year not in (1, 2, 3, 4):
        return (3, 0)
    n = fault(year, h, a, b, density, kind, x)
    if n:
        return (n, 2 if year == 1 else 4)
    if direction not in (SINGLE_WINDS if kind == 6 else (0, 90)):
        return (3, 0)
    flat = kind in (2, 3, 4, 5)
    if not (place in 'ABCDw' or kind in (1, 6) and place in 'EFGH' or flat and place in 'EF12'):
        return (6, 0)
    if place in 'ABCDw' and direction not in (0, 90):
        return (6, 0)
    if place in 'ABCDw':
        number, row = next((n, r) for n, r in enumerate(WALLS, 1) if Q(h, b) <= r[0] and Q(a, b) <= r[1])
        printed = row[2] if direction == 0 else row[3]
        cell = row[4] if place == 'w' else printed.split()['ABCD'.index(place)]
        return [thousandths(Q(cell))], (number, number, Q(0))
    at = place_of_x(h, kind, x)
    if kind == 1:
        block = GABLE_ROWS[next(limit for limit in sorted(GABLE) if Q(h, b) <= limit)]
        column = (0 if place in 'EF' else 1) if direction == 0 else (2 if place in 'EG' else 3)
        value, rows = on_line(block, column, at)
        return [value], rows
    if kind == 6:
        pair = place in 'FH' if direction == 90 else place in 'GH'
        value, rows = on_slope(2 * SINGLE_WINDS.index(direction) + pair, at)
        return [value], rows
    # zone F has the rows of E, and both signs of one value in each
    value, rows = on_line(FLAT_ROWS[kind], {'E': 0, 'F': 0, '1': 1, '2': 2}[place], at)
    return [200, -200] if place == 'F' else [value], rows


def show(h, a, b, kind, x, direction, place, year=1):
    """The question, the outside answer, the net one at internal -0.30, and the rows of both; a space after each number."""
    answer, rest = outside(year, h, a, b, 1250, kind, x, direction, place)
    if isinstance(answer, int):
        said = 'refused %d %d net refused %d %d ' % (answer, rest, answer, rest)
    else:
        values, nets = (''.join('%d ' % (v - internal) for v in answer) for internal in (0, -300))
        lower, upper, way = rest
        said = '%snet %srows %d %d %d %d ' % (values, nets, lower, upper, way.numerator, way.denominator)
    print(h, a, b, kind, x, direction, place, said)


# one step inside and outside of each limit of h/b and a/b, at b 1000, and each end itself
HEIGHTS = [100, 499, 500, 501, 1499, 1500, 1501, 5999, 6000, 6001]
SIDES = [999, 1000, 1001, 1499, 1500, 1501, 3999, 4000, 4001]
PLACES = [(0, 'A'), (0, 'B'), (0, 'C'), (0, 'D'), (90, 'A'), (90, 'B'), (90, 'C'), (90, 'D'), (0, 'w'), (45, 'A')]
for h in HEIGHTS:
    for a in SIDES:
        for direction, place in PLACES:
            show(h, a, 1000, 0, 0, direction, place)

# each slope of each block, and a step of a tenth of a degree to either side
BLOCKS = [500, 501, 1500, 1501, 6000]
SLOPES = [0, 1, 49, 50, 51, 99, 100, 101, 199, 200, 201, 299, 300, 301, 399, 400, 401, 449, 450, 451, 499, 500, 501, 599, 600, 601]
ROOF = [(0, 'E'), (0, 'F'), (0, 'G'), (0, 'H'), (90, 'E'), (90, 'F'), (90, 'G'), (90, 'H')]
for h in BLOCKS:
    for x in SLOPES:
        for direction, place in ROOF:
            show(h, 1200, 1000, 1, x, direction, place)

# each row of the flat roofs at h 4000, and a step of a centimetre or of a tenth of a degree to either side
EAVES = [(2, 0), (2, 1)]
EAVES += [(3, x) for x in (99, 100, 101, 199, 200, 201, 399, 400, 401)]
EAVES += [(4, x) for x in (199, 200, 201, 399, 400, 401, 799, 800, 801)]
EAVES += [(5, x) for x in (299, 300, 301, 449, 450, 451, 599, 600, 601, 899, 900, 901)]
FLATS = [(0, 'E'), (0, 'F'), (0, '1'), (0, '2'), (90, 'E'), (90, 'F'), (90, '1'), (90, '2'), (0, 'G'), (90, 'H')]
for kind, x in EAVES:
    for direction, place in FLATS:
        show(4000, 4800, 4000, kind, x, direction, place)

# each end of each row of the single slopes, and a step of a tenth of a degree to either side; the walls under each wind
INCLINES = [49, 50, 51, 99, 100, 101, 149, 150, 151, 199, 200, 201, 249, 250, 251, 299, 300, 301]
for x in INCLINES:
    for direction in SINGLE_WINDS + (30,):
        for place in 'EFGHAw1':
            show(500, 1200, 1000, 6, x, direction, place)

# square plans and one step to either side, in each year and in one before and after them: the year first
for year in (0, 1, 2, 3, 4, 5):
    for h in HEIGHTS:
        for a in (999, 1000, 1001):
            for direction, place in PLACES:
                print('year', year, end=' ')
                show(h, a, 1000, 0, 0, direction, place, year)
