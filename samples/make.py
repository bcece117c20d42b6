#!/usr/bin/env python3
"""Writes the sample cartridge images, and what the lister is to print of each.

Every expected line below is written by hand beside the image that it belongs to; none is taken from the program.

Words are big-endian, 32 bits. An image is four words (1, capacity C, entries n, bytes used), C entries of two words (length,
start), and B body bytes. A body above 134,217,728 bytes is unsound too, and has no sample: the file would be too large, and the
lister refuses it by its size.
"""
from wire import text, word, write


def pattern(count):
    """Body bytes: a run that is easy to tell from zeros."""
    return bytes(1 + i % 251 for i in range(count))


def image(capacity, table, used, body, first=1, entries=None, rest=(0, 0)):
    """An image of the given words. `table` has the entries (length, start) from the first on; those past it are `rest`."""
    count = len(table) if entries is None else entries
    rows = [w for row in table for w in row] + list(rest) * (capacity - len(table))
    return word(first, capacity, count, used, *rows) + body


REFUSED = ['refused 15']

PAPER = image(8, [(1024, 0), (0, 1024), (512, 1024)], 1536, pattern(2048))
PAPER_LINES = [
    'cartridge 3 of 8 entries, 1536 of 2048 bytes',
    '0 record 1024 at 0',
    '1 mark at 1024',
    '2 record 512 at 1024',
]

# name, what it holds, the image, the expected lines
SAMPLES = [
    ('paper', 'records of 1,024 and 512 parted by a mark', PAPER, PAPER_LINES),
    ('empty', 'no entries, none of the body used', image(8, [], 0, pattern(2048)), [
        'cartridge 0 of 8 entries, 0 of 2048 bytes',
    ]),
    ('marks_only', 'three marks', image(5, [(0, 0)] * 3, 0, pattern(100)), [
        'cartridge 3 of 5 entries, 0 of 100 bytes',
        '0 mark at 0',
        '1 mark at 0',
        '2 mark at 0',
    ]),
    ('no_body', 'B = 0, with two marks', image(3, [(0, 0)] * 2, 0, b''), [
        'cartridge 2 of 3 entries, 0 of 0 bytes',
        '0 mark at 0',
        '1 mark at 0',
    ]),
    ('table_full', 'n = C, body bytes left', image(4, [(10, 0), (0, 10), (1, 10), (0, 11)], 11, pattern(12)), [
        'cartridge 4 of 4 entries, 11 of 12 bytes',
        '0 record 10 at 0',
        '1 mark at 10',
        '2 record 1 at 10',
        '3 mark at 11',
    ]),
    ('one_full', 'the least of both: C = 1 and B = 1, all used', image(1, [(1, 0)], 1, pattern(1)), [
        'cartridge 1 of 1 entries, 1 of 1 bytes',
        '0 record 1 at 0',
    ]),
    ('body_full', 'used = B, with a record of the greatest length', image(3, [(32768, 0), (7, 32768)], 32775, pattern(32775)), [
        'cartridge 2 of 3 entries, 32775 of 32775 bytes',
        '0 record 32768 at 0',
        '1 record 7 at 32768',
    ]),
    ('rubbish_past_n', 'entries past n that would be unsound, and are not read',
     image(6, [(20, 0), (0, 20)], 20, pattern(30), rest=(4294967295, 3735928559)), [
        'cartridge 2 of 6 entries, 20 of 30 bytes',
        '0 record 20 at 0',
        '1 mark at 20',
    ]),
    ('size_65536', 'the greatest size that is listed, with C = 4,096', image(4096, [(12, 0), (0, 12), (30000, 12)], 30012, pattern(32752)), [
        'cartridge 3 of 4096 entries, 30012 of 32752 bytes',
        '0 record 12 at 0',
        '1 mark at 12',
        '2 record 30000 at 12',
    ]),
    ('size_65537', 'the same with one body byte more: sound, and too large',
     image(4096, [(12, 0), (0, 12), (30000, 12)], 30012, pattern(32753)), REFUSED),
    ('nothing', 'no bytes at all', b'', REFUSED),
    # Each of the rest breaks one test alone, but for the first: 15 bytes hold no table either.
    ('bytes_15', 'one byte short of the four words', image(1, [], 0, b'')[:15], REFUSED),
    ('first_2', 'first word 2', image(4, [(9, 0)], 9, pattern(20), first=2), REFUSED),
    ('capacity_0', 'C = 0', image(0, [], 0, pattern(20)), REFUSED),
    ('capacity_4097', 'C = 4,097', image(4097, [(9, 0)], 9, pattern(20)), REFUSED),
    ('table_cut', 'one byte short of its table', image(8, [(0, 0)], 0, b'')[:79], REFUSED),
    # The entry past the table, which lies in the body, is a mark in its place.
    ('entries_above', 'n = C + 1', image(2, [(9, 0), (0, 9)], 9, word(0, 9) + pattern(20), entries=3), REFUSED),
    ('used_above', 'used = B + 1', image(4, [(101, 0)], 101, pattern(100)), REFUSED),
    ('length_32769', 'an entry length of 32,769', image(4, [(32769, 0)], 32769, pattern(32769)), REFUSED),
    ('start_off', 'a start one above the sum before it', image(4, [(9, 0), (8, 10)], 17, pattern(20)), REFUSED),
    ('first_start_off', 'a first start that is not 0', image(4, [(9, 1)], 9, pattern(20)), REFUSED),
    ('used_over', 'used one above the sum', image(4, [(9, 0), (8, 9)], 18, pattern(20)), REFUSED),
    ('used_under', 'used one below the sum', image(4, [(9, 0), (8, 9)], 16, pattern(20)), REFUSED),
]


def main():
    write('run_lister/stdin', PAPER)
    write('run_lister/stdout', text(PAPER_LINES))
    print(f'run_lister/stdin: {len(PAPER)} bytes: the image of sample paper')
    lines = []
    for name, holds, data, expected in SAMPLES:
        write(f'run_samples/data/{name}', data)
        lines += [name] + expected
        print(f'run_samples/data/{name}: {len(data)} bytes: {holds}: {expected[0]}')
    write('run_samples/args', text(name for name, _, _, _ in SAMPLES))
    write('run_samples/stdout', text(lines))


main()
