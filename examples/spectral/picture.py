#!/usr/bin/env python3
"""picture.py LOG FOLDER OUT.svg: the README's picture, from 'spectral -d FOLDER -p -r BITS .. plain main >LOG'. Needs the standard library alone.

Three bands before and after, by plain and by main, with their errors, and the bits of each band and of each component."""
import array
import base64
import re
import struct
import sys
import zlib

CROP = 112     # samples each way, from the upper left
SHOWN = 188    # pixels each way in the picture
LEVELS = 32    # greys, so that the file stays small
WHITE = 200    # the error that is drawn white


def png(pixels):
    """A grey PNG of CROP by CROP pixels of 8 bits."""
    rows = b''.join(b'\0' + bytes(pixels[y * CROP:(y + 1) * CROP]) for y in range(CROP))

    def chunk(kind, data):
        return struct.pack('>I', len(data)) + kind + data + struct.pack('>I', zlib.crc32(kind + data))
    return (b'\x89PNG\r\n\x1a\n' + chunk(b'IHDR', struct.pack('>IIBBBBB', CROP, CROP, 8, 0, 0, 0, 0)) +
            chunk(b'IDAT', zlib.compress(rows, 9)) + chunk(b'IEND', b''))


def grey(value, low, high):
    """A value as one of LEVELS greys, low black and high white."""
    step = (value - low) * LEVELS // (high - low + 1)
    return max(0, min(LEVELS - 1, step)) * 255 // (LEVELS - 1)


def read_cubes(name, count):
    """The cube before and after, as the program on this machine's kind wrote them."""
    numbers = array.array('h')
    with open(name, 'rb') as f:
        numbers.frombytes(f.read())
    if sys.byteorder != 'little':
        numbers.byteswap()
    if len(numbers) != 2 * count:
        sys.exit(f'{name}: has another length')
    return numbers[:count], numbers[count:]


def band(cube, b, side):
    """The upper left corner of a band."""
    at = b * side * side
    return [v for y in range(CROP) for v in cube[at + y * side:at + y * side + CROP]]


def main():
    log, folder, out = sys.argv[1:4]
    with open(log) as f:
        text = f.read()
    said = {}
    for part in re.split(r'^(?=plain:|main:)', text, flags=re.M):
        size = re.match(r'(\w+): (\d+) bands of (\d+)', part)
        figures = re.search(r'([\d.]+) bits a sample, ([\d.]+) dB', part)
        if size and figures:
            bits = [float(v) for v in re.findall(r'component \d+, ([\d.]+) bits', part)]
            said[size[1]] = (int(size[2]), int(size[3]), figures[1], figures[2], bits)
    bands, side = said['plain'][:2]
    before, plain = read_cubes(f'{folder}/plain.raw', bands * side * side)
    _, transformed = read_cubes(f'{folder}/main.raw', bands * side * side)

    parts = []

    def label(x, y, words, anchor='start'):
        parts.append(f'<text x="{x:.0f}" y="{y:.0f}" text-anchor="{anchor}">{words}</text>')

    def picture(column, row, pixels):
        data = base64.b64encode(png(pixels)).decode()
        parts.append(f'<image x="{left + column * (SHOWN + 8)}" y="{30 + row * (SHOWN + 8)}" width="{SHOWN}" height="{SHOWN}" '
                     f'href="data:image/png;base64,{data}"/>')

    left, width = 64, 5 * (SHOWN + 8) - 8
    heads = ['before', f'plain, {said["plain"][3]} dB', f'main, {said["main"][3]} dB',
             f'error of plain ({WHITE} is white)', f'error of main ({WHITE} is white)']
    for i, head in enumerate(heads):
        label(left + i * (SHOWN + 8), 22, head)
    for row in range(3):
        b = (2 * row + 1) * bands // 6
        a, p, m = (band(cube, b, side) for cube in (before, plain, transformed))
        low, high = min(a), max(a)
        for column, values in enumerate((a, p, m)):
            picture(column, row, [grey(v, low, high) for v in values])
        for column, values in ((3, p), (4, m)):
            picture(column, row, [grey(abs(v - w), 0, WHITE) for v, w in zip(a, values)])
        label(left - 8, 30 + row * (SHOWN + 8) + SHOWN / 2, f'band {b}', 'end')

    top, height = 30 + 3 * (SHOWN + 8) + 36, 220
    means = {name: sum(said[name][4]) / bands for name in said}
    label(left, top - 14, f'Bits a sample of each band (grey, {means["plain"]:.2f} on average) and of each component, greatest variance first '
                          f'(blue, {means["main"]:.2f}), each coded by itself, 5-3')
    most = 14
    for v in range(0, most + 1, 2):
        y = top + height - v * height / most
        parts.append(f'<line x1="{left}" x2="{left + width}" y1="{y:.1f}" y2="{y:.1f}" stroke="#ddd"/>')
        label(left - 8, y + 5, v, 'end')
    step = width / bands
    for c in range(bands):
        for k, (name, colour) in enumerate((('plain', '#b0b0b0'), ('main', '#1f5fa8'))):
            if c < len(said[name][4]):
                h = said[name][4][c] * height / most
                parts.append(f'<rect x="{left + (c + 0.05 + 0.45 * k) * step:.1f}" y="{top + height - h:.1f}" '
                             f'width="{step * 0.42:.1f}" height="{h:.1f}" fill="{colour}"/>')
        if c % 8 == 0:
            label(left + (c + 0.5) * step, top + height + 18, c, 'middle')
    w, h = left + width + 16, top + height + 30
    with open(out, 'w') as f:
        f.write(f'<svg xmlns="http://www.w3.org/2000/svg" width="{w}" height="{h}" viewBox="0 0 {w} {h}" '
                f'font-family="DejaVu Sans, sans-serif" font-size="13"><rect width="{w}" height="{h}" fill="white"/>\n'
                + '\n'.join(parts) + '\n</svg>\n')


main()
