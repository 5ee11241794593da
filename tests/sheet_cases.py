#!/usr/bin/env python3
"""Writes the input of the program sheet_cases and the output that it must have.

  python3 tests/sheet_cases.py            write crates/sheet_cases/stdin and crates/sheet_cases/stdout
  python3 tests/sheet_cases.py FOLDER     write stdin and stdout to another folder

Each case is two fields: its label and a sheet. The expected line comes from the reader below, which shares nothing
with the crates.
"""
import os
import sys

# --- sheets


def u16(n):
    return bytes([n % 256, n // 256])


def field(tag, content):
    return bytes([tag]) + u16(len(content)) + content


def head(count, edition=1):
    return field(1, u16(edition) + u16(count))


def entry(name=b'A'):
    return field(2, name)


def figure(rule, parents, keep=0, spread=0, name=b'F', count=None):
    count = len(parents) if count is None else count
    return field(3, bytes([rule, keep, spread, count]) + b''.join(map(u16, parents)) + name)


LAST = field(4, b'')


def sheet(*items, count=None, edition=1):
    count = len(items) if count is None else count
    return head(count, edition) + b''.join(items) + LAST


# --- the reader: the first field at fault counts, and in it the lowest number

ITEMS = {1: 1024, 2: 4096}
SPREADS = {1: (0, 1, 2), 2: (0, 1)}
PARENTS = {1: (1, 16), 2: (2, 2), 3: (1, 16), 4: (1, 16), 5: (2, 2), 6: (3, 3), 7: (1, 16), 8: (2, 2)}


class Refused(Exception):
    pass


def cut(s, at):
    if len(s) < at + 3:
        raise Refused(1, at)
    length = s[at + 1] + 256 * s[at + 2]
    if len(s) < at + 3 + length:
        raise Refused(1, at)
    return s[at], s[at + 3:at + 3 + length], at + 3 + length


def is_name(b):
    return 1 <= len(b) <= 16 and all(33 <= c <= 126 for c in b)


def item_level(edition, tag, c, at, levels):
    if tag not in (2, 3):
        raise Refused(2, at)
    if tag == 2:
        if not is_name(c):
            raise Refused(3, at)
        return 0
    if len(c) < 4:
        raise Refused(3, at)
    rule, keep, spread, count = c[:4]
    if not is_name(c[4 + 2 * count:]):
        raise Refused(3, at)
    low, high = PARENTS.get(rule, (1, 0))
    if not low <= count <= high or keep > 1 or spread not in SPREADS[edition]:
        raise Refused(5, at)
    parents = [c[4 + 2 * k] + 256 * c[5 + 2 * k] for k in range(count)]
    if any(p >= len(levels) for p in parents):
        raise Refused(6, at)
    level = 1 + max(levels[p] for p in parents)
    if level > 64:
        raise Refused(7, at)
    return level


def read(s):
    tag, c, at = cut(s, 0)
    if tag != 1:
        raise Refused(2, 0)
    if len(c) != 4:
        raise Refused(3, 0)
    edition, count = c[0] + 256 * c[1], c[2] + 256 * c[3]
    if not 1 <= count <= ITEMS.get(edition, 0):
        raise Refused(4, 0)
    offsets, levels = [], []
    for _ in range(count):
        tag, c, after = cut(s, at)
        levels.append(item_level(edition, tag, c, at, levels))
        offsets.append(at)
        at = after
    tag, c, after = cut(s, at)
    if tag != 4:
        raise Refused(2, at)
    if len(c) != 0:
        raise Refused(3, at)
    if after < len(s):
        raise Refused(2, after)
    return edition, offsets, levels


def line(s):
    try:
        edition, offsets, levels = read(s)
    except Refused as r:
        return 'REFUSED %d %d' % r.args
    places = ['%d/%d' % p for p in zip(offsets, levels)]
    shown = places[:8] + (places[-1:] if len(places) > 8 else [])
    return 'OPENS %d %d %s' % (edition, len(offsets), ' '.join(shown))


# --- the cases

CASES = []


def case(label, s):
    CASES.append((label, s))


A, B, C = entry(b'A'), entry(b'B'), entry(b'C')
EXAMPLE = sheet(entry(b'A'), entry(b'L'), entry(b'S'), figure(1, [0, 2], keep=1, name=b'T'), figure(2, [3, 1], name=b'B'))


def tower(levels):
    return sheet(A, *[figure(1, [i], name=b'%d' % (i + 1)) for i in range(levels)])


case('example', EXAMPLE)
case('empty sheet', b'')
case('level 64', tower(64))
case('level 65', tower(65))
for n in (0, 1, 128, 129, 1024, 1025):
    case('count %d' % n, sheet(*[A] * n))
for n in (0, 1, 128, 129, 1024, 1025):
    case('count %d in edition 2' % n, sheet(*[A] * n, edition=2))
# Sheets of a few thousand items are large, and the program reads at most 65,536 bytes.
ABOVE = [figure(1, [4031 + i]) for i in range(63)]
case('count 4096 in edition 2, the last of 16 parents and at level 64',
     sheet(*[A] * 4032, *ABOVE, figure(1, [0, 127, 128, 1023, 1024, 1025, 4031] + [4094] * 9), edition=2))
case('count 2 with 1 item', sheet(A, count=2))
case('count 1 with 2 items', sheet(A, B, count=1))
for n, items in ((128, 129), (129, 128)):
    for e in (1, 2):
        case('count %d with %d items in edition %d' % (n, items, e), sheet(*[A] * items, count=n, edition=e))
for n in (1024, 1025, 4096, 4097, 8192, 65535):
    for e in (1, 2, 3):
        case('count %d with 1 item in edition %d' % (n, e), sheet(A, count=n, edition=e))
for e in (0, 1, 2, 3, 255, 256, 257, 258, 512, 513, 65535):
    case('edition %d' % e, sheet(A, edition=e))
case('example in edition 2', EXAMPLE[:3] + u16(2) + EXAMPLE[5:])
case('item 1 with the parent 1024', sheet(A, figure(1, [1024]), edition=2))
case('item 1 with the parent 4096', sheet(A, figure(1, [4096]), edition=2))
for n in (0, 1, 16, 17):
    case('entry with a name of %d' % n, sheet(entry(b'n' * n)))
    case('figure with a name of %d' % n, sheet(A, figure(1, [0], name=b'n' * n)))
for b in (32, 33, 126, 127):
    case('entry with byte %d' % b, sheet(entry(bytes([65, b, 65]))))
    case('figure with byte %d' % b, sheet(A, figure(1, [0], name=bytes([65, b]))))
case('a name given twice', sheet(A, A))
case('rule 0', sheet(A, figure(0, [0])))
case('rule 1', sheet(A, figure(1, [0])))
case('rule 8', sheet(A, B, figure(8, [0, 1])))
case('rule 9', sheet(A, B, figure(9, [0, 1])))
for rule, (low, high) in PARENTS.items():
    for n in sorted({low - 1, low, high, high + 1}):
        case('rule %d with %d parents' % (rule, n), sheet(A, figure(rule, [0] * n)))
for keep in (0, 1, 2, 255):
    case('keep %d' % keep, sheet(A, figure(1, [0], keep=keep)))
for spread in (0, 1, 2, 3, 4, 6, 130, 255):
    case('spread %d' % spread, sheet(A, figure(1, [0], spread=spread)))
    case('spread %d in edition 2' % spread, sheet(A, figure(1, [0], spread=spread), edition=2))
case('rule, count, parents and name of 2 in edition 2', sheet(A, B, C, figure(2, [2, 2], name=b'2'), edition=2))
for e in (1, 2):
    PLAIN, FORGETS = figure(1, [0]), figure(1, [0], spread=2)
    HIGH = [figure(1, [i]) for i in range(64)]
    for label, s in (
            ('in two figures', sheet(A, FORGETS, FORGETS, edition=e)),
            ('in the last of three figures', sheet(A, PLAIN, PLAIN, FORGETS, edition=e)),
            ('before spread 3', sheet(A, FORGETS, figure(1, [0], spread=3), edition=e)),
            ('after spread 3', sheet(A, figure(1, [0], spread=3), FORGETS, edition=e)),
            ('and a keep of 2', sheet(A, figure(1, [0], keep=2, spread=2), edition=e)),
            ('and 6 in a figure', sheet(A, figure(1, [1], spread=2), edition=e)),
            ('and 7 in a figure', sheet(A, *HIGH, figure(1, [64], spread=2), edition=e)),
            ('and 1 in a figure', head(2, e) + A + FORGETS[:-1]),
            ('and 2 in a figure', sheet(A, FORGETS, count=1, edition=e)),
            ('and 3 in a figure', sheet(A, figure(1, [0], spread=2, name=b' '), edition=e)),
            ('before a figure with 6', sheet(A, FORGETS, figure(1, [2]), edition=e)),
            ('after a figure with 6', sheet(A, figure(1, [1]), FORGETS, edition=e)),
            ('before a last field that is absent', sheet(A, FORGETS, edition=e)[:-3]),
            ('and too many items', sheet(A, FORGETS, count=ITEMS[e] + 1, edition=e))):
        case('edition %d, spread 2 %s' % (e, label), s)
case('a parent listed twice', sheet(A, figure(1, [0, 0])))
case('a parent equal to the item', sheet(A, figure(1, [1])))
case('a parent above the item', sheet(A, figure(1, [2]), B))
case('a parent of 65535', sheet(A, figure(1, [65535])))
case('the second parent equal to the item', sheet(A, figure(1, [0, 1])))
case('figure first', sheet(figure(1, [0]), A))
case('figure of length 3', sheet(A, field(3, b'\1\0\0')))
case('figure of length 4', sheet(A, field(3, b'\1\0\0\1')))
case('figure of length 4 without parents', sheet(A, field(3, b'\1\0\0\0')))
case('figure of length 0', sheet(A, field(3, b'')))
case('a count of 255 in a short field', sheet(A, field(3, b'\1\0\0\xff\0\0N')))
case('half a parent', sheet(A, field(3, b'\1\0\0\1\0')))
case('last field of length 1', head(1) + A + field(4, b'x'))
case('last field is an entry', head(1) + A + entry(b''))
case('last field absent', head(1) + A)
case('one byte after the last field', sheet(A) + b'\0')
case('a field after the last field', sheet(A) + LAST)
case('an entry after the last field', sheet(A) + A)
case('head of tag 2', field(2, u16(1) + u16(1)) + A + LAST)
case('head of length 3', field(1, b'\1\0\1') + A + LAST)
case('head of length 5', field(1, b'\1\0\1\0\0') + A + LAST)
case('item of tag 0', sheet(field(0, b'A')))
case('item of tag 1', sheet(field(1, b'A')))
case('item of tag 4', sheet(field(4, b'')))
case('item of tag 5', sheet(field(5, b'A')))
case('the head overruns by 1', bytes([1, 4, 0, 1, 0, 1]))
case('an entry overruns by 1', head(1) + bytes([2, 2, 0, 65]))
case('a figure overruns by 1', head(2) + A + figure(1, [0], name=b'NN')[:-1])
case('the last field overruns by 1', head(1) + A + bytes([4, 1, 0]))
case('an entry of 65535 bytes', head(1) + bytes([2, 255, 255, 65]))
case('1 and 2 in the head', bytes([9, 4, 0, 1, 0]))
case('1 and 2 in an item', head(1) + bytes([9, 2, 0, 65]))
case('1 and 2 in the last field', head(1) + A + bytes([9, 1, 0]))
case('2 and 3 in the head', field(9, b'\1\0'))
case('2 and 3 in an item', sheet(field(9, b'')))
case('2 and 3 in the last field', head(1) + A + field(9, b'x'))
case('3 and 4 in the head', field(1, b'\3\0\0\0\0') + A + LAST)
case('edition and count in the head', field(1, b'\3\0\0\0') + LAST)
case('3 and 5 in a figure', sheet(A, figure(9, [0], name=b'')))
case('5 and 6 in a figure', sheet(A, figure(9, [1])))
case('6 and 7 in a figure', sheet(A, *[figure(1, [i]) for i in range(64)], figure(1, [64, 65])))
case('5 and 7 in a figure', sheet(A, *[figure(1, [i]) for i in range(64)], figure(1, [64], keep=2)))
case('7 in the first of two fields, 2 in the second', sheet(A, *[figure(1, [i]) for i in range(65)], field(9, b'')))
case('3 in the first of two items, 2 in the second', sheet(entry(b''), field(9, b'A')))
case('2 in the first of two items, 1 in the second', head(2) + field(9, b'A') + b'\2')
case('a level over the second parent', sheet(A, figure(1, [0]), figure(1, [0, 1])))
for n in range(len(EXAMPLE)):
    case('example cut at %d' % n, EXAMPLE[:n])

assert sum(6 + len(label) + len(s) for label, s in CASES) <= 65536

folder = os.path.join(os.path.dirname(os.path.dirname(os.path.abspath(__file__))), 'crates', 'sheet_cases')
if len(sys.argv) > 1:
    folder = sys.argv[1]
with open(os.path.join(folder, 'stdin'), 'wb') as f:
    for label, s in CASES:
        f.write(field(0, label.encode()) + field(1, s))
with open(os.path.join(folder, 'stdout'), 'w') as f:
    for label, s in CASES:
        f.write('%s: %s\n' % (label, line(s)))
