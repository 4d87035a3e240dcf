#!/usr/bin/env python3
"""Writes the reel images that the listing programs are run on, and what they must print.

A second, independent writing of document 01's reel: the expected lines come from here and not from the proved code.
Usage: tools/images.py   (from anywhere; it writes below crates/)
"""
import os, struct

CRATES = os.path.join(os.path.dirname(os.path.abspath(__file__)), '..', 'crates')

def block(kind, n, i, data=b''):
    body = struct.pack('<HHH', kind, n, i) + data + bytes(504 - len(data))
    return body + struct.pack('<H', sum(struct.unpack('<255H', body)) % 65535)

def record(d):
    return b''.join(block(1, len(d), i, d[504 * i:504 * i + 504]) for i in range((len(d) + 503) // 504))

MARK, GAP = block(2, 0, 0), block(3, 0, 0)

def resum(image, k):
    body = image[512 * k:512 * k + 510]
    return image[:512 * k + 510] + struct.pack('<H', sum(struct.unpack('<255H', body)) % 65535) + image[512 * k + 512:]

def poke(image, at, byte):
    return image[:at] + bytes([byte]) + image[at + 1:]

def put(image, k, block):
    return image[:512 * k] + block + image[512 * k + 512:]

def ramp(n):
    return bytes(i * 7 % 256 for i in range(n))

EVERY = record(b'AB') + MARK + GAP + record(ramp(768)) + record(ramp(505)) + MARK + MARK
ZERO = block(1, 2, 0, struct.pack('<H', 65532))                          # its 255 words add up to 65,535
FULL = record(ramp(49896)) + record(ramp(504)) * 28 + MARK               # 128 blocks: 65,536 bytes

CASES = [
    ('empty', b'', 'E 0'),
    ('paper', record(b'AB') + MARK + MARK, 'R 0 2\nM 1\nM 2\nE 3'),
    ('full', FULL, '\n'.join(['R 0 49896'] + ['R %d 504' % (99 + i) for i in range(28)] + ['M 127', 'E 128'])),
    ('long', FULL + b'\0', 'L'),
    ('longest', record(ramp(64512)), 'R 0 64512\nE 128'),                 # the longest that an image has room for
    ('about_16384', record(ramp(16384)) + record(ramp(16385)) + MARK, 'R 0 16384\nR 33 16385\nM 66\nE 67'),
    ('ragged', EVERY + bytes(511), 'S'),
    # each fault by itself, where an object is due and where a later piece is
    ('kind', put(EVERY, 1, bytes(512)), 'X 1 K'),                         # a block of zeros: no kind
    ('kind_of_a_piece', put(EVERY, 4, bytes(512)), 'X 4 K'),              # .. where a piece is due
    ('length', put(EVERY, 0, block(1, 0, 0)), 'X 0 N'),                   # a record of no bytes
    ('length_of_a_mark', put(EVERY, 4, block(2, 5, 0)), 'X 4 N'),         # a mark with a length, where a piece is due
    ('index', put(EVERY, 0, block(1, 504, 1, ramp(504))), 'X 0 I'),       # piece 1 of a record that has one
    ('mark_words', resum(poke(EVERY, 512 + 4, 1), 1), 'X 1 I'),           # a mark with an index, the check is right
    ('padding', resum(poke(EVERY, 9, 1), 0), 'X 0 P'),                    # a byte beyond "AB" is not 0, the check is right
    ('padding_of_a_gap', resum(poke(EVERY, 512 * 2 + 509, 1), 2), 'X 2 P'),
    ('check', poke(EVERY, 512 * 4 + 100, 0), 'X 4 C'),                    # one data byte changed, its check left
    ('check_of_65535', put(EVERY, 0, ZERO[:510] + b'\xff\xff'), 'X 0 C'), # a sum of 65,535 is 0 modulo 65,535
    # two at once: the first in the order is told
    ('kind_and_length', put(EVERY, 0, block(4, 0, 1)), 'X 0 K'),
    ('length_and_index', put(EVERY, 0, block(2, 5, 1)), 'X 0 N'),
    ('index_and_padding', put(EVERY, 0, block(3, 0, 1, b'A')), 'X 0 I'),
    ('padding_and_check', poke(EVERY, 9, 1), 'X 0 P'),
    # sound, and out of place; and what is damaged besides is told as that
    ('cut_off', EVERY[:512 * 4], 'X 3 I'),                                # the end cuts the second record off
    ('cut_off_damaged', poke(EVERY[:512 * 4], 512 * 3 + 100, 0), 'X 3 C'),
    ('cut_off_longest', (MARK + record(ramp(65535)))[:512 * 128], 'X 1 I'),  # 131 blocks: more than an image has
    ('out_of_place', EVERY[:512 * 3] + EVERY[512 * 4:512 * 5] + EVERY, 'X 3 I'),  # a record that starts at piece 1
    ('mark_for_a_piece', put(EVERY, 4, MARK), 'X 4 I'),
    ('mark_for_a_piece_damaged', put(EVERY, 4, poke(MARK, 511, 1)), 'X 4 C'),
    ('piece_of_another', put(EVERY, 4, record(ramp(769))[512:]), 'X 4 I'),
]

def write(name, data):
    path = os.path.join(CRATES, name)
    os.makedirs(os.path.dirname(path), exist_ok=True)
    with open(path, 'wb') as f:
        f.write(data)

write('listing/stdin', EVERY)
write('listing/stdout', b'R 0 2\nM 1\nG 2\nR 3 768\nR 5 505\nM 7\nM 8\nE 9\n')
for name, image, lines in CASES:
    write('listing_cases/data/' + name, image)
write('listing_cases/stdout', ''.join('%s\n%s\n' % (n, l) for n, _, l in CASES).encode())
