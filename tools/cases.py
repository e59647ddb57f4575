#!/usr/bin/env python3
"""cases: writes the sheets that crates/cases reads (stdin) and what it must print (stdout).

Each case is a title, a text and its answer. The answers were worked out by hand from paper 01 and from the points of
docs/DECISIONS.md that the titles name: no line of the proved code was run for them. A sheet holds no `=`, so one stands
between cases.

    tools/cases.py crates/cases
"""
import sys

B, W, I, F = 'B 1\n500 1200 1000 1250 0 0\n', 'W 1\n0 400\n', 'I 1\n20\n', 'F 1\nA 0 1000 0 0\n'
# of year 2, where the building stands on line 4, the profile's count on line 9 and this face on line 13; years 3 and 4 have its form
V, P, HIGH = 'V 1\n2\n', 'P 2\n0 800\n1200 1000\n', 'F 1\nA 0 600 1000 0 0\n'
V3, V4 = 'V 1\n3\n', 'V 1\n4\n'
cases = []


def sheet(b=B, w=W, i=I, f=F):
    return b + w + i + f


def high(v=V, b=B, w=W, i=I, p=P, f=HIGH):
    return v + b + w + i + p + f


def case(title, text, answer):
    cases.append((title, text, answer.rstrip('\n') + '\n'))


def six(total):
    """one face of one alternative, with forces on x alone"""
    return ''.join(f'{axis} {word} {total if axis == "x" else 0} 1 1 1\n' for axis in 'xyz' for word in ('max', 'min'))


def pair(total):
    """newtons, rounded down, and the units that remain: 20,000,000,000 are a newton"""
    return '%d %d' % divmod(total, 20_000_000_000)


def six_pairs(total, faces=1):
    """the same in year 4, of so many faces"""
    return ''.join(f'{axis} {word} {pair(total if axis == "x" else 0)} 1 1{" 1" * faces}\n' for axis in 'xyz' for word in ('max', 'min'))


# (0.700 - 0.200) in thousandths x 1250 x 400^2 x 1000
case('the least sheet: (0.700 - 0.200) x 1250 x 400^2 x 1000', sheet(), six(500 * 1250 * 400 ** 2 * 1000))
case('nothing at all', '', 'refused 1 1')
case('one LF', '\n', 'refused 1 1')
case('point 2: unended comes before the count', 'B 2', 'refused 1 1')
case('B 2, ended', 'B 2\n', 'refused 2 1')
case('point 3: on the building line, 3 before 4 (h 50, a square plan)', sheet(b='B 1\n50 1000 1000 1250 0 0\n'), 'refused 3 2')
case('point 3: 4 before 5 (a square plan, x 1 without a roof)', sheet(b='B 1\n500 1000 1000 1250 0 1\n'), 'refused 4 2')
case('x 1 without a roof', sheet(b='B 1\n500 1200 1000 1250 0 1\n'), 'refused 5 2')
case('point 3: on a face line, 3 before 6 (zone E without a roof, an area out of range)', sheet(f='F 1\nE 0 100001 0 0\n'), 'refused 3 8')
case('zone E without a roof', sheet(f='F 1\nE 0 1000 0 0\n'), 'refused 6 8')
case('point 4: B -1', 'B -1\n', 'refused 2 1')
case('point 4: W -1', B + 'W -1\n', 'refused 2 3')
case('point 4: W 0', B + 'W 0\n', 'refused 2 3')
case('point 4: W 9', B + 'W 9\n', 'refused 2 3')
case('point 4: W 10000000, of 8 digits', B + 'W 10000000\n', 'refused 1 3')
case('I 5', B + W + 'I 5\n', 'refused 2 5')
case('F 25', B + W + I + 'F 25\n', 'refused 2 7')
case('point 5: direction -90', sheet(w='W 1\n-90 400\n'), 'refused 3 4')
case('point 5: direction -', sheet(w='W 1\n- 400\n'), 'refused 1 4')
case('direction 45', sheet(w='W 1\n45 400\n'), 'refused 3 4')
case('point 5: mark -90', sheet(f='F 1\nA -90 1000 0 0\n'), 'refused 3 8')
for mark in ('-0', '00', '+0', '--'):
    case(f'point 5: mark {mark}', sheet(f=f'F 1\nA {mark} 1000 0 0\n'), 'refused 1 8')
case('mark -, for both', sheet(f='F 1\nA - 1000 0 0\n'), six(500 * 1250 * 400 ** 2 * 1000))
case('marked for the other direction: adds nothing', sheet(f='F 1\nA 90 1000 0 0\n'), six(0))
case('point 6: zone I', sheet(f='F 1\nI 0 1000 0 0\n'), 'refused 1 8')
case('point 7: h 10000000', sheet(b='B 1\n10000000 1200 1000 1250 0 0\n'), 'refused 1 2')
case('point 7: h 9999999', sheet(b='B 1\n9999999 1200 1000 1250 0 0\n'), 'refused 3 2')
case('a leading zero', sheet(w='W 1\n0 0400\n'), 'refused 1 4')
case('speed 0', sheet(w='W 1\n0 0\n'), 'refused 3 4')
case('two spaces', sheet(w='W 1\n0  400\n'), 'refused 1 4')
case('a carriage return', sheet(w='W 1\n0 400\r\n'), 'refused 1 4')
case('internal -101', sheet(i='I 1\n-101\n'), 'refused 3 6')
case('a second wind is missing', sheet(w='W 2\n0 400\n'), 'refused 1 5')
case('the last face is missing', B + W + I + 'F 2\nA 0 1000 0 0\n', 'refused 1 9')
case('point 14: one LF more', sheet() + '\n', 'refused 1 9')
case('point 14: one space more', sheet() + ' ', 'refused 1 9')
case('the first faulty line counts: line 4 before line 6', sheet(w='W 1\n0 1001\n', i='I 1\n5 5\n'), 'refused 3 4')

# Year 2: the face's speed is the wind's times the factor at its height, rounded once to a tenth.
case('year 2: 0.9 at half the height, speed 360', high(), six(500 * 1250 * 360 ** 2 * 1000))
case('year 2: on the first line of the profile, speed 320', high(f='F 1\nA 0 0 1000 0 0\n'), six(500 * 1250 * 320 ** 2 * 1000))
case('year 2: on the last line of the profile, speed 400', high(f='F 1\nA 0 1200 1000 0 0\n'), six(500 * 1250 * 400 ** 2 * 1000))
case('year 2: a profile of one line', high(p='P 1\n600 750\n'), six(500 * 1250 * 300 ** 2 * 1000))
case('year 2: 0.95 between the second line and the third, speed 380',
     high(p='P 3\n0 100\n1000 900\n3000 1000\n', f='F 1\nA 0 2000 1000 0 0\n'), six(500 * 1250 * 380 ** 2 * 1000))
case('year 2: marked for the other direction: adds nothing', high(f='F 1\nA 90 600 1000 0 0\n'), six(0))
case('speed 1, factor 500: a half goes up', high(w='W 1\n0 1\n', p='P 1\n600 500\n'), six(500 * 1250 * 1 * 1000))
case('point 31: speed 1, factor 499: 0', high(w='W 1\n0 1\n', p='P 1\n600 499\n'), six(0))
case('point 31: the factor 499.5 is not rounded up before the product', high(w='W 1\n0 1\n', p='P 2\n599 499\n601 500\n'), six(0))
case('point 31: nor down, speed 500', high(w='W 1\n0 1000\n', p='P 2\n599 499\n601 500\n'), six(500 * 1250 * 500 ** 2 * 1000))
case('point 29: V', 'V', 'refused 1 1')
case('point 29: V 2', 'V 2\n', 'refused 2 1')
case('point 29: VX 1', 'VX 1\n', 'refused 1 1')
case('point 29: V 1 and nothing more', 'V 1\n', 'refused 1 2')
case('point 19: V line 1', high(v='V 1\n1\n'), 'refused 3 2')
case('V line 0', high(v='V 1\n0\n'), 'refused 3 2')
case('V line 02', high(v='V 1\n02\n'), 'refused 1 2')
case('V line 2 2', high(v='V 1\n2 2\n'), 'refused 1 2')
case('point 19: the building on line 4', high(b='B 1\n500 1000 1000 1250 0 0\n'), 'refused 4 4')
case('year 2 without a profile', high(p=''), 'refused 1 9')
case('a profile in year 1', high(v='', f=F), 'refused 1 7')
case('a height in year 1', sheet(f=HIGH), 'refused 1 8')
case('no height in year 2', high(f=F), 'refused 1 13')
for count in ('0', '17', '-1'):
    case(f'P {count}', high(p=f'P {count}\n'), 'refused 2 9')
case('P 2 with one line', high(p='P 2\n0 800\n'), 'refused 1 11')
for line in ('-1 800', '30001 800', '0 0', '0 1001'):
    case(f'profile line {line}', high(p=f'P 1\n{line}\n'), 'refused 3 10')
for line in ('0', '0 800 0', '- 800', '00 800'):
    case(f'profile line {line}', high(p=f'P 1\n{line}\n'), 'refused 1 10')
case('point 32: a height that stays', high(p='P 2\n600 800\n600 1000\n'), 'refused 3 11')
case('point 32: a height that falls', high(p='P 2\n600 800\n599 1000\n'), 'refused 3 11')
case('point 32: a height that falls, in a line that is not in form', high(p='P 2\n600 800\n599 1000 \n'), 'refused 1 11')
case('a height one above the profile', high(f='F 1\nA 0 1201 1000 0 0\n'), 'refused 8 13')
case('a height one below the profile', high(p='P 2\n601 800\n1200 1000\n'), 'refused 8 13')
case('a height out of range', high(f='F 1\nA 0 30001 1000 0 0\n'), 'refused 3 13')
case('a height below 0', high(f='F 1\nA 0 -1 1000 0 0\n'), 'refused 3 13')
case('point 32: 6 before 8', high(f='F 1\nE 0 1201 1000 0 0\n'), 'refused 6 13')
case('point 32: 3 before 6', high(f='F 1\nE 0 1201 1000 0 100001\n'), 'refused 3 13')
case('year 2: one LF more', high() + '\n', 'refused 1 14')

# Single slopes, kind 6, of 10 degrees unless said: on row 1 E and F have -1.000 under 0, 45 and 90 (E), -0.500 under 90 (F),
# -0.900 under 135, -0.500 under 180; G and H -0.500, -0.900, -1.000 (G), -0.500 (H), -1.000, -1.000. The internal is 0.200.


def single(x=100, direction=45, face='E -'):
    return sheet(b=f'B 1\n500 1200 1000 1250 6 {x}\n', w=f'W 1\n{direction} 400\n', f=f'F 1\n{face} 1000 0 0\n')


for direction, nets in {0: (-1200, -1200, -700, -700), 45: (-1200, -1200, -1100, -1100), 90: (-1200, -700, -1200, -700),
                        135: (-1100, -1100, -1200, -1200), 180: (-700, -700, -1200, -1200)}.items():
    for zone, net in zip('EFGH', nets):
        case(f'kind 6: zone {zone} marked - under wind {direction}, net {net}', single(100, direction, f'{zone} -'), six(net * 1250 * 400 ** 2 * 1000))
    case(f'kind 6: zone G marked {direction} under its wind', single(100, direction, f'G {direction}'), six(nets[2] * 1250 * 400 ** 2 * 1000))
# E under 135: -0.900 to 10 degrees, -0.600 at 15, -0.500 at 20, -0.300 at 25, -0.100 at 30
for x, net in ((50, -1100), (99, -1100), (100, -1100), (101, -1094), (125, -950), (150, -800), (200, -700), (249, -504), (300, -300)):
    case(f'kind 6: zone E under wind 135 at {x} tenths of a degree, net {net}', single(x, 135), six(net * 1250 * 400 ** 2 * 1000))
for mark, direction in ((0, 45), (45, 135), (90, 180), (135, 0), (180, 90)):
    case(f'kind 6: zone E marked {mark} under wind {direction}: nothing', single(100, direction, f'E {mark}'), six(0))
case('kind 6: wall A marked 0 under wind 0', single(100, 0, 'A 0'), six(500 * 1250 * 400 ** 2 * 1000))
case('kind 6: wall A marked 90 under wind 90', single(100, 90, 'A 90'), six(-700 * 1250 * 400 ** 2 * 1000))
for direction in (45, 135, 180):
    case(f'kind 6: wall A marked 0 under wind {direction}: nothing', single(100, direction, 'A 0'), six(0))
case('kind 6: slope 49', single(49), 'refused 5 2')
case('kind 6: slope 301', single(301), 'refused 5 2')
case('kind 6: slope -1', single(-1), 'refused 3 2')
case('kind 7', sheet(b='B 1\n500 1200 1000 1250 7 100\n'), 'refused 3 2')
case('point 20: a square plan under a single slope, 4 before 5', sheet(b='B 1\n500 1000 1000 1250 6 49\n'), 'refused 4 2')
for direction in (225, -45):
    case(f'kind 6: direction {direction}', single(100, direction), 'refused 3 4')
    case(f'kind 6: mark {direction}', single(100, 45, f'E {direction}'), 'refused 3 8')
    case(f'kind 6: mark {direction} on a wall: 3 before 6', single(100, 45, f'A {direction}'), 'refused 3 8')
for direction in (0, 45):
    for mark in ('-', 45, 135, 180):
        case(f'point 20: a wall marked {mark} on kind 6, wind {direction}', single(100, direction, f'C {mark}'), 'refused 6 8')
case('point 20: a wall marked - on kind 6 with an area out of range: 3 before 6', sheet(b='B 1\n500 1200 1000 1250 6 100\n', f='F 1\nA - 100001 0 0\n'), 'refused 3 8')
for kind, x, direction in ((0, 0, 135), (1, 100, 45), (1, 100, 135), (1, 100, 180), (2, 0, 45), (3, 50, 180), (4, 50, 135), (5, 300, 180)):
    b = f'B 1\n500 1200 1000 1250 {kind} {x}\n'
    case(f'direction {direction} on kind {kind}', sheet(b=b, w=f'W 1\n{direction} 400\n'), 'refused 3 4')
    case(f'mark {direction} on kind {kind}', sheet(b=b, f=f'F 1\nA {direction} 1000 0 0\n'), 'refused 3 8')
case('kind 1: mark 45 and a zone that is there', sheet(b='B 1\n500 1200 1000 1250 1 100\n', f='F 1\nE 45 1000 0 0\n'), 'refused 3 8')
case('kind 2: a bad mark and a zone not on the building: 3', sheet(b='B 1\n500 1200 1000 1250 2 0\n', f='F 1\nG 45 1000 0 0\n'), 'refused 3 8')
slope = 'B 1\n500 1200 1000 1250 6 100\n'
case('kind 6 in year 2: -1.200 at speed 360', high(b=slope, w='W 1\n45 400\n', f='F 1\nE - 600 1000 0 0\n'), six(-1200 * 1250 * 360 ** 2 * 1000))
case('kind 6 in year 2: a wall marked -', high(b=slope, f='F 1\nA - 600 1000 0 0\n'), 'refused 6 13')
case('kind 6 in year 2: a wall marked - above the profile: 6 before 8', high(b=slope, f='F 1\nA - 1201 1000 0 0\n'), 'refused 6 13')
case('kind 6 in year 2: a wall marked 0 above the profile', high(b=slope, f='F 1\nA 0 1201 1000 0 0\n'), 'refused 8 13')
case('kind 6 in year 2: slope 301', high(b='B 1\n500 1200 1000 1250 6 301\n'), 'refused 5 4')
case('kind 1 in year 2: direction 180', high(b='B 1\n500 1200 1000 1250 1 100\n', w='W 1\n180 400\n'), 'refused 3 6')

# Year 3: a square plan is in the rows of a/b to 3/2. B under wind 0 has -0.200, -0.250 and -0.250 there by h/b, A under wind 90
# -0.500, -0.600 and -0.800. The internal is 0.200; the speed at the face 360.


def square(h=500, a=1000, rest='0 0'):
    return f'B 1\n{h} {a} 1000 1250 {rest}\n'


for h, b_net, a_net in ((500, -400, -700), (501, -450, -800), (1500, -450, -800), (1501, -450, -1000), (6000, -450, -1000)):
    case(f'year 3: a square plan of h {h}, zone B under wind 0, net {b_net}',
         high(V3, square(h), f='F 1\nB 0 600 -1000 0 0\n'), six(-b_net * 1250 * 360 ** 2 * 1000))
    case(f'year 3: a square plan of h {h}, zone A under wind 90, net {a_net}',
         high(V3, square(h), 'W 1\n90 400\n', f='F 1\nA - 600 1000 0 0\n'), six(a_net * 1250 * 360 ** 2 * 1000))
case('point 23: a gable of 10 degrees on a square plan, -1.200 and the internal off',
     high(V3, square(rest='1 100'), f='F 1\nE 0 600 1000 0 0\n'), six(-1400 * 1250 * 360 ** 2 * 1000))
case('point 23: curved eaves of x/h 0.10 on a square plan, -0.300 and the internal off',
     high(V3, square(rest='4 50'), f='F 1\nE 0 600 1000 0 0\n'), six(-500 * 1250 * 360 ** 2 * 1000))
case('point 23: a single slope of 10 degrees on a square plan under wind 45',
     high(V3, square(rest='6 100'), 'W 1\n45 400\n', f='F 1\nE - 600 1000 0 0\n'), six(-1200 * 1250 * 360 ** 2 * 1000))
case('year 3: a plan that is not square as in year 2', high(V3), six(500 * 1250 * 360 ** 2 * 1000))
case('year 3: a below b', high(V3, square(a=999)), 'refused 4 4')
case('year 3: a over 4 b', high(V3, square(a=4001)), 'refused 4 4')
case('year 3: h over 6 b on a square plan', high(V3, square(6001)), 'refused 4 4')
case('year 3: 3 before 4 (h 50, a below b)', high(V3, square(50, 999)), 'refused 3 4')
case('year 3: a square plan and x 1 without a roof: 5', high(V3, square(rest='0 1')), 'refused 5 4')
case('year 2: a square plan and x 1 without a roof: 4', high(V, square(rest='0 1')), 'refused 4 4')
case('year 1: a square plan', sheet(square()), 'refused 4 2')
for year in ('1', '5', '-3', '30', '9999999'):
    case(f'V line {year} before a square plan', high(f'V 1\n{year}\n', square()), 'refused 3 2')
for line in ('03', '3 3', '3 ', '+3'):
    case(f'V line {line}', high(f'V 1\n{line}\n', square()), 'refused 1 2')
case('year 3 without a profile', high(V3, square(), p=''), 'refused 1 9')
case('year 3: no height', high(V3, square(), f=F), 'refused 1 13')
case('year 3: a height one above the profile', high(V3, square(), f='F 1\nA 0 1201 1000 0 0\n'), 'refused 8 13')

# Year 4: totals as newtons with a remainder, and up to 240 faces. Every total is a multiple of the density, so the nearest to
# nothing is 1000 units, at speed 0.1 and net -0.001: a gable of 45.7 degrees has 0.300 + 0.400 x 7/150 = 0.319 in zone E.


def faint(area):
    return high(V4, 'B 1\n500 1200 1000 1000 1 457\n', 'W 1\n0 1\n', 'I 1\n32\n', 'P 1\n600 1000\n', f'F 1\nE 0 600 {area} 0 0\n')


case('year 4: 4050 N and nothing beside', high(V4), six_pairs(500 * 1250 * 360 ** 2 * 1000))
case('year 4: nothing at all, marked for the other direction', high(V4, f='F 1\nA 90 600 1000 0 0\n'), six_pairs(0))
case('year 4: 1000 units', faint(-1), six_pairs(1000))
case('year 4: 1000 units below nothing', faint(1), six_pairs(-1000))
case('year 4: -5.67 N, which are -6 N and 0.33 N beside', high(V4, w='W 1\n90 400\n', f='F 1\nA - 600 1 0 0\n'), six_pairs(-700 * 1250 * 360 ** 2))
case('year 4: a square plan of h 500, zone B under wind 0', high(V4, square(), f='F 1\nB 0 600 -1000 0 0\n'), six_pairs(400 * 1250 * 360 ** 2 * 1000))
case('year 4: 25 faces', high(V4, f='F 25\n' + 'A 0 0 1 0 0\n' * 25), six_pairs(25 * 500 * 1250 * 320 ** 2, 25))
# zone F of a flat roof: +0.200, then -0.200
each = 26 * 200 * 1250 * 320 ** 2
case('year 4: 26 faces of two alternatives', high(V4, 'B 1\n500 1200 1000 1250 2 0\n', i='I 1\n0\n', f='F 26\n' + 'F 0 0 1 0 0\n' * 26),
     six_pairs(each, 26).replace(f'x min {pair(each)} 1 1{" 1" * 26}', f'x min {pair(-each)} 1 1{" 2" * 26}'))
for year in (2, 3):
    case(f'year {year}: 25 faces', high(f'V 1\n{year}\n', f='F 25\n' + 'A 0 0 1 0 0\n' * 2), 'refused 2 12')
case('year 4: 241 faces', high(V4, f='F 241\n' + 'A 0 0 1 0 0\n' * 2), 'refused 2 12')
case('year 4: 239 faces are missing', high(V4, f='F 240\n' + 'A 0 0 1 0 0\n'), 'refused 1 14')
case('year 4: without a profile', high(V4, p=''), 'refused 1 9')
# 0.700 and the internal -1.000 off
total = 240 * 1700 * 1500 * 999 ** 2 * 99999
assert total > 2 ** 63
case('year 4: 240 faces, whose total fits 64 bits no longer',
     high(V4, 'B 1\n500 1200 1000 1500 0 0\n', 'W 1\n0 999\n', 'I 1\n-100\n', 'P 1\n0 1000\n', 'F 240\n' + 'A 0 0 99999 0 0\n' * 240), six_pairs(total, 240))

# Every line as long as it may be: 41 lines of 827 bytes in year 1. Parapet at x/h 0.10, zone F: +0.200, then -0.200; internal -1.000.
before = 'B 1\n30000 30000 10000 1500 3 3000\n' + 'W 8\n' + '90 1000\n' * 8 + 'I 4\n' + '-100\n' * 4 + 'F 24\n'
longest = before + 'F 90 -100000 -100000 -100000\n' * 24
assert len(longest) == 827
least, greatest = (24 * net * 1500 * 1000 ** 2 * -100000 for net in (1200, 800))
lines = ''.join(f'{axis} max {greatest} 1 1{" 2" * 24}\n{axis} min {least} 1 1{" 1" * 24}\n' for axis in 'xyz')
case('point 15: the longest acceptable sheet of year 1 but for kind 6, 827 bytes', longest, lines)
case('point 15: a longest line in form behind it is still 1 at its own number',
     longest + '9999999 9999999 9999999 9999999 9999999 -999999\n' * 3, 'refused 1 42')
case('point 15: the last of 24 faces out of range, the line at its longest',
     before + 'F 90 -100000 -100000 -100000\n' * 23 + 'F 90 -9999999 -9999999 -9999999\n', 'refused 3 41')

# In year 2 there are 6 bytes of section V more, 5 + 16 x 11 of section P and 6 for each of 24 heights. The factor is 1.
steps = 'P 16\n' + ''.join(f'{height} 1000\n' for height in range(29985, 30001))
before = V + before.replace('F 24\n', steps + 'F 24\n')
longest = before + 'F 90 29985 -100000 -100000 -100000\n' * 24
assert len(longest) == 827 + 6 + 5 + 16 * 11 + 24 * 6 == 1158
case('point 15: the longest acceptable sheet of year 2 but for kind 6, 1158 bytes', longest, lines)
case('point 15: a longest line in form behind it too',
     longest + '9999999 9999999 9999999 9999999 9999999 -999999\n' * 3, 'refused 1 61')
case('point 15: the last of 24 faces out of range, the line at its longest, in year 2',
     before + 'F 90 29985 -100000 -100000 -100000\n' * 23 + 'F -9999999 -9999999 -9999999 -9999999 -9999999\n', 'refused 3 60')
case('point 15: the last of 24 faces one below the profile',
     before + 'F 90 29985 -100000 -100000 -100000\n' * 23 + 'F 90 29984 -100000 -100000 -100000\n', 'refused 8 60')

# Kind 6 has the longest: one byte more in each of 8 directions and 24 marks, one less in x. E at 30 degrees under 180 is 0.
before = before.replace('30000 30000 10000 1500 3 3000', '30000 30000 10000 1500 6 300').replace('90 1000\n' * 8, '180 1000\n' * 8)
longest = before + 'E 180 29985 -100000 -100000 -100000\n' * 24
assert len(longest) == 1158 + 8 + 24 - 1 == 1189
total = 24 * 1000 * 1500 * 1000 ** 2 * -100000
lines = ''.join(f'{axis} {word} {total} 1 1{" 1" * 24}\n' for axis in 'xyz' for word in ('max', 'min'))
case('point 15: the longest acceptable sheet, of kind 6 in year 2, 1189 bytes', longest, lines)
case('point 15: a longest line in form behind it too, on kind 6',
     longest + '9999999 9999999 9999999 9999999 9999999 -999999\n' * 3, 'refused 1 61')
case('point 15: the last of 24 faces out of range, the line at its longest, on kind 6',
     before + 'E 180 29985 -100000 -100000 -100000\n' * 23 + 'E -9999999 -9999999 -9999999 -9999999 -9999999\n', 'refused 3 60')
case('point 15: the last of 24 faces a wall marked 180',
     before + 'E 180 29985 -100000 -100000 -100000\n' * 23 + 'A 180 29985 -100000 -100000 -100000\n', 'refused 6 60')

# refused sheets, a line each: number, line, and the text with its ends written out
with open(__file__.replace('cases.py', 'sheets.txt')) as listed:
    for place, entry in enumerate(listed, 1):
        number, line, text = entry.rstrip('\n').split(' ', 2)
        if number != '0':
            case(f'sheets.txt, line {place}', text.replace('\\n', '\n').replace('\\r', '\r').replace('\\t', '\t'), f'refused {number} {line}')

# What the program asks by itself: questions, then records, with number and line, or thousandths and rows: lower, upper, part,
# whole. 201/4000 = 0.05025 is 1/200 of the way from 0.05 (row 5) to 0.10 (row 6), and 82/1600 = 0.05125 is 1/40 of it; straight
# eaves are row 1; h/b 1.6 is over 3/2 and a/b 1.2 is not: row 5 of the walls. The square plan is h 500, a and b 1000: row 1.
asked = '''point 18: curved, zone E, exactly -0.3995: -400 rows 5 6 1 200
flat, zone F: 200 -200 rows 1 1 0 1
point 6: zone I: 6 0
zone G on a flat roof: 6 0
L1 on a gable: 6 0
point 7: h 10000000: 1 2
point 7: h -9999999: 3 2
point 7: direction 1000000000000, for a local too: 3 0
a single slope of 12.5 degrees, zone E under 135: -750 rows 1 2 1 2
a wall of it under 45: 6 0
a gable under 45: 3 0
year 1, a square plan: 4 2
year 2, a square plan: 4 4
year 3, a square plan, zone B: -200 rows 1 1 0 1
year 3, a below b: 4 4
year 4, a square plan, zone B: -200 rows 1 1 0 1
year 5, before a square plan: 3 0
point 11: rounded first, then the internal coefficient comes off: 602 rows 5 6 1 40
point 12: the net of the wall local: -1400 rows 5 5 0 1
point 7: internal 101: 3 0
6 before 3: zone H with internal 101: 6 0
a record in order: 0 0
a record marked for both: 0 0
point 8: nine winds: 2 3
point 8: 4000000000 faces: 2 7
point 9: a zeroed entry inside the count: 1 8
point 9: mark 45: 3 8
point 9: mark 10000000, which no sheet carries: 1 8
point 19: year 0: 3 2
point 30: year 1 with 17 steps: 0 0
year 2 with one step: 0 0
year 2 with none: 2 9
year 2 with 17: 2 9
year 2 with two at one height: 3 11
year 3: 0 0
year 3 with none: 2 9
year 4: 0 0
year 4 with none: 2 9
year 5: 3 2
year 10000000, of 8 digits: 1 2
year 1, 25 faces: 2 7
year 3, 25 faces: 2 11
year 4, 25 faces: 0 0
year 4, 240 faces: 0 0
year 4, 241 faces: 2 11
'''
# then the report of a job with one face by stored sums: both numbers plain, the remainder not padded (point 28)
for title, total in (('one unit below nothing', -1), ('one unit', 1), ('one unit below 1 N', 20_000_000_000 - 1), ('-1 N', -20_000_000_000)):
    asked += f'year 4, {title}:\n' + ''.join(f'{axis} {word} {pair(total)} 1 1 1\n' for axis in 'xyz' for word in ('max', 'min'))
asked += 'year 3, one unit below nothing:\n' + ''.join(f'{axis} {word} -1 1 1 1\n' for axis in 'xyz' for word in ('max', 'min'))
folder = sys.argv[1]
texts = '='.join(title + '\n' + text for title, text, _ in cases)
assert len(texts) <= 65536, 'the program reads no more'
open(f'{folder}/stdin', 'w', newline='').write(texts)
open(f'{folder}/stdout', 'w', newline='').write(''.join(title + '\n' + answer for title, _, answer in cases) + asked)
