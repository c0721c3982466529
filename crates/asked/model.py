#!/usr/bin/env python3
# The questions of document 01 written a second time, in Python's own numbers. `python3 model.py | diff - stdout` is silent.
import re

WIDTH = 9
ROOM = b'a1bc22-3aba'
ROWS = [
    (9, 0, 35, 0, 3, 0, 11, 1, 1), (10, 1, 2, 0, 1, 0, 2, 1, 2), (4, 4, 5, 1, 2, 0, 3, 1, 5), (10, 7, 9, 2, 4, 0, 4, 1, 8),
    (8, 11, 19, 0, 2, 0, 7, 1, 12), (4, 12, 14, 4, 6, 4, 6, 1, 13), (4, 16, 18, 6, 8, 4, 7, 1, 17), (10, 21, 23, 8, 10, 0, 8, 1, 22),
    (9, 25, 34, 0, 1, 0, 11, 1, 26), (10, 26, 27, 10, 11, 8, 10, 1, 27), (1, 29, 33, 0, 0, 8, 11, 1, 30)]
TABLE = [w for row in ROWS for w in row]
MOST, GREAT = 2 ** 64 - 1, 2 ** 32 - 1


class Bad(Exception):
    pass


def row(table, count, r):
    if not r < count or WIDTH * (r + 1) > len(table):
        raise Bad
    return dict(zip(('kind', 'first', 'after', 'start', 'end', 'parent', 'next', 'line', 'column'), table[WIDTH * r:WIDTH * (r + 1)]))


def text_of(table, count, room, r):
    it = row(table, count, r)
    if it['kind'] not in (4, 5, 6, 7, 10) or not it['start'] <= it['end'] <= len(room):
        raise Bad
    return room[it['start']:it['end']]


def found(table, count, room, r, key):
    it = row(table, count, r)
    if it['kind'] != 9:
        raise Bad
    at, stop = r + 1, it['next']
    while at < stop:
        name = text_of(table, count, room, at)
        if row(table, count, at)['kind'] != 10:
            raise Bad
        value = row(table, count, at + 1)
        if name == key:
            return 0, at + 1
        if not at + 1 < value['next'] <= stop:
            raise Bad
        at = value['next']
    return 10, 0


def text(table, count, room, r, mark=''):
    try:
        n, s = 0, text_of(table, count, room, r)
    except Bad:
        n, s = 9, b''
    print(f"{mark}text {count} {r} -> {n} '{s.decode()}'")


def find(table, count, room, r, key, mark=''):
    try:
        n, v = found(table, count, room, r, key)
    except Bad:
        n, v = 9, 0
    print(f"{mark}find {count} {r} '{key.decode()}' -> {n} {v}")


def verdict(a, b):
    for s in a, b:
        if not re.fullmatch(r'0|-?[1-9][0-9]*', s, re.ASCII) or '\n' in s:
            return '11 0'
    x, y = whole(a), whole(b)
    return f'0 {(x > y) - (x < y)}'


def whole(s):
    n = 0
    for c in s.lstrip('-'):
        n = 10 * n + int(c)
    return -n if s[0] == '-' else n


def with_word(at, value):
    t = list(TABLE)
    t[at] = value
    return t, f'word {at} is {value} '


def texts():
    for r in list(range(12)) + [MOST]:
        text(TABLE, 11, ROOM, r)
    for count, r in (0, 0), (5, 4), (5, 5), (6, 5), (100, 9), (100, 11), (MOST, 2049638230412172401), (MOST, MOST - 1):
        text(TABLE, count, ROOM, r)
    for n, r in (7, 5), (7, 6), (0, 1):
        text(TABLE, 11, ROOM[:n], r)
    for n, r in (90, 9), (89, 9), (0, 0):
        text(TABLE[:n], 11, ROOM, r)
    for at, values in (27, (0, 3, 4, 7, 8, 11, GREAT)), (28, (GREAT,)), (29, (0,)), (30, (0, 4, 5, GREAT)), (31, (2, 1, 11, 12, GREAT)), (32, (GREAT,)), (33, (GREAT,)), (34, (GREAT,)), (35, (GREAT,)):
        for value in values:
            t, mark = with_word(at, value)
            text(t, 11, ROOM, 3, mark)


def finds():
    for key in b'a', b'bc', b'ab', b'b', b'abc', b'bd', b'':
        find(TABLE, 11, ROOM, 0, key)
    find(TABLE, 11, ROOM, 8, b'a')
    find(TABLE, 11, ROOM, 8, b'ab')
    for r in list(range(1, 13)) + [MOST]:
        find(TABLE, 11, ROOM, r, b'a')
    for at, value, key in ((31, 3, b'b'), (30, 10, b'a'), (42, 0, b'a'), (42, 0, b'bc'), (24, 1, b'ab'), (24, 2, b'ab'), (24, 0, b'ab'),
                           (42, 3, b'ab'), (42, 4, b'ab'), (42, 5, b'ab'), (42, 11, b'ab'), (42, 12, b'ab'), (6, 0, b'a'), (6, 1, b'a'),
                           (6, 2, b'a'), (6, 4, b'ab'), (6, 12, b'ab'), (6, 12, b'no')):
        t, mark = with_word(at, value)
        find(t, 11, ROOM, 0, key, mark)


def cuts():
    for n in range(100):
        find(TABLE[:n], 11, ROOM, 0, b'ab', f'words {n} ')
    for count in range(13):
        find(TABLE, count, ROOM, 0, b'ab')
    find(TABLE, MOST, ROOM, 0, b'ab')
    find(TABLE, MOST, ROOM, 12, b'ab')
    find(TABLE, MOST, ROOM, MOST - 1, b'ab')
    for n in range(12):
        find(TABLE, 11, ROOM[:n], 0, b'ab', f'room {n} ')


def damages():
    for at in range(99):
        for value in 0, TABLE[at] + 1, GREAT:
            t, mark = with_word(at, value)
            find(t, 11, ROOM, 0, b'ab', mark)


def compares():
    nine = '9' * 20
    ten = '1' + '0' * 20
    for a, b in (
            ('10', '9'), ('9', '10'), ('9', '9'), ('0', '0'), ('0', '1'), ('123', '124'), ('223', '124'),
            ('-1', '0'), ('0', '-1'), ('-10', '-9'), ('-9', '-10'), ('-9', '-9'), ('-9', '9'), ('9', '-9'),
            ('1', '-100'), ('-100', '1'), (nine, ten), ('-' + nine, '-' + ten), (str(2 ** 64), str(MOST)),
            ('', '1'), ('1', ''), ('', ''), ('-', '1'), ('a', 'b'),
            ('-0', '0'), ('0', '-0'), ('007', '7'), ('7', '007'), ('00', '0'), ('-07', '7'),
            (' 1', '1'), ('1 ', '1'), ('1 0', '1'), ('1.0', '1'), ('1e3', '1'),
            ('+1', '1'), ('--1', '1'), ('1-', '1'), ('1', '1:'), ('1', '1/')):
        print(f"compare '{a}' '{b}' -> {verdict(a, b)}")
    low, high = '7' * 16384, '7' * 16383 + '8'
    print('compare 16 KB, alike ->', verdict(low, low))
    print('compare 16 KB, the last digit more ->', verdict(low, high))
    print('compare 16 KB, the last digit more, below zero ->', verdict('-' + low[1:], '-' + high[1:]))


texts()
finds()
cuts()
damages()
compares()
