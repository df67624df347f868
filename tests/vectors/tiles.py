#!/usr/bin/env python3
"""The stored runs of the tally: crates/tiles/stdin of 65,537 lines, the texts in crates/test_tiles/data, and what must be written for them. Run at the
repository's root. The figures are counted here from the tiles of a text, found by a pattern; nothing comes from the project's own code."""
import re

LINE = re.compile(rb'(0|[1-9][0-9]*) (0|[1-9][0-9]*)\n')


def report(text):
    tiles = []
    at = 0
    while len(tiles) < 65536:
        line = LINE.match(text, at)
        if not line or int(line[1]) > 15 or int(line[2]) > 15360:
            break
        tiles.append((int(line[1]), int(line[2])))
        at = line.end()
    passes = [p for _, p in tiles]
    most = max(passes, default=0)
    figures = [len(tiles)] + [sum(a == k for a, _ in tiles) for k in range(16)] + [sum(passes), most, passes.index(most) if tiles else 0]
    return ''.join('%d\n' % f for f in figures) + 'end\n'


def lines(tiles):
    return b''.join(b'%d %d\n' % t for t in tiles)


# Every answer, and the most passes twice; the last line is good, and one too many.
full = [(i % 16, i % 60) for i in range(65537)]
full[40001] = full[50000] = full[65536] = (9, 15360)
whole = lines(full)
open('crates/tiles/stdin', 'wb').write(whole)
open('crates/tiles/stdout', 'w').write(report(whole))

good = lines([(0, 12), (3, 15360)])
runs = {
    'empty': b'',
    'one': lines([(0, 0)]),
    'all_answers': lines([(a, 2 * a) for a in range(16)]),
    'most_is_first': lines([(0, 7), (9, 15360), (0, 8), (15, 15360), (1, 15359)]),
    # more than two pieces of 4,096 bytes, of lines that a piece's end cuts anywhere
    'pieces': lines([(i % 16, (i * 7919) % 15361) for i in range(1300)]),
    'answer_16': good + b'16 0\n0 1\n',
    'passes_15361': good + b'0 15361\n0 1\n',
    'number_2_to_64': good + b'0 18446744073709551616\n0 1\n',
    'leading_zero': good + b'07 3\n0 1\n',
    'passes_leading_zero': good + b'7 00\n0 1\n',
    'two_spaces': good + b'0  1\n0 1\n',
    'space_before': good + b' 0 1\n0 1\n',
    'space_behind': good + b'0 1 \n0 1\n',
    'carriage_return': good + b'0 1\r\n0 1\n',
    'no_passes': good + b'0\n0 1\n',
    'three_numbers': good + b'0 1 2\n0 1\n',
    'empty_line': good + b'\n0 1\n',
    'sign': good + b'+0 1\n0 1\n',
    'no_last_line_feed': good + b'0 1',
    'zero_byte': good + b'0 1\0\n0 1\n',
}
with open('crates/test_tiles/stdout', 'w') as wanted:
    for name, text in runs.items():
        open('crates/test_tiles/data/' + name, 'wb').write(text)
        wanted.write('-- %s\n%s' % (name, report(text)))
