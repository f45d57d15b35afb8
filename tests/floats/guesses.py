"""Prints the table of crates/root_table/src/guesses.rt: the first guesses of the whole root of a number from 2^52 to 2^54.

Entry i serves a 1,024th of these numbers, from low(i) to below low(i + 1). It is the whole number of 2^11 nearest to the middle
between the roots of the two ends. tests/root_table.sh holds the stored table to what this prints.
"""
from math import isqrt

ENTRIES = 1024
UNIT = 2 ** 11


def low(i):
    return 2 ** 52 + i * (3 * 2 ** 42)


def entry(i):
    middle = (isqrt(low(i)) + isqrt(low(i + 1))) // 2
    return (middle + UNIT // 2) // UNIT


def main():
    print('// The first guesses of the whole root, one for each 1,024th of the numbers from 2^52 to 2^54, in units of 2^11. Written by tests/floats/guesses.py.')
    print('pub const GUESSES: [u16; %d] = [' % ENTRIES)
    # as rt fmt lays it out, thirteen to a line
    words = ['%d,' % entry(i) for i in range(ENTRIES)]
    for i in range(0, ENTRIES, 13):
        print('    ' + ' '.join(words[i:i + 13]))
    print('];')


if __name__ == '__main__':
    main()
