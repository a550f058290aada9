#!/usr/bin/env python3
"""Compares `hour` on random streams with a second reading of docs/RULES.md and docs/STREAM.md, for the network block.

Usage, after `tools/build hour`: tools/compare-block.py [STREAMS] [SEED]
"""
import random
import subprocess
import sys

OPERANDS = dict(Z=1, Y=1, K=9, R=52, V=52, H=5, G=0, O=10, B=10, T=11, W=4, C=1, Q=1, S=1, X=1, A=8, L=5, M=6)
MOST_KWH = 10_000_000


def number(raw):
    return int.from_bytes(raw, 'little')


def expected(stream):
    """The lines that the documents ask for."""
    stream, at, lines_out = stream[:65536], 0, []
    base, zones, linked, missing, lines, monitored, phase = None, 0, 0, 0, 0, 0, 'start'
    while at < len(stream):
        letter, offset = chr(stream[at]), at
        if letter not in OPERANDS:
            return lines_out + [f'{offset} ? refused 1 0 0']
        if at + 1 + OPERANDS[letter] > len(stream):
            return lines_out + [f'{offset} {letter} refused 2 0 0']
        raw = stream[at + 1:at + 1 + OPERANDS[letter]]
        at += 1 + OPERANDS[letter]
        whole = phase != 'start' and missing == 0
        refusal = 0
        if letter in 'OBTWCQSXALM':
            refusal = 3 if raw[0] > 1 else 4
        elif letter in 'ZY':
            if phase != 'start':
                refusal = 4
            elif not 1 <= raw[0] <= 24:
                refusal = 5
            else:
                base, zones, linked, phase = letter, raw[0], 1, 'base'
                missing = zones - 1 if letter == 'Z' else 0
        elif letter == 'K':
            if phase != 'base' or base != 'Z' or missing == 0:
                refusal = 4
            elif raw[0] >= linked:
                refusal = 5
            elif number(raw[1:5]) > MOST_KWH or number(raw[5:9]) > MOST_KWH:
                refusal = 6
            else:
                missing, linked, lines = missing - 1, linked + 1, lines + 2
        elif letter in 'RV':
            row = [int.from_bytes(raw[4 + 2 * i:6 + 2 * i], 'little', signed=True) for i in range(24)]
            now = (phase == 'base' and base == 'Y') if letter == 'R' else (whole and phase in ('base', 'monitored'))
            if not now:
                refusal = 4
            elif any(row[zones:]):
                refusal = 5
            elif number(raw[:4]) > MOST_KWH or any(abs(s) > 1000 for s in row):
                refusal = 6
            elif lines >= 60 or (letter == 'V' and monitored >= 10):
                refusal = 8
            else:
                lines += 1
                if letter == 'V':
                    monitored, phase = monitored + 1, 'monitored'
        elif letter == 'H':
            if not whole:
                refusal = 4
            elif raw[0] >= lines:
                refusal = 5
            elif number(raw[1:5]) > MOST_KWH:
                refusal = 6
            else:
                phase = 'held back'
        elif whole:
            return lines_out + [f'{offset} G ok']
        else:
            refusal = 4
        lines_out.append(f'{offset} {letter} ' + (f'refused {refusal} 0 0' if refusal else 'ok'))
    return lines_out


def random_command(rnd):
    letter = rnd.choice('KKKRRRVVVHHHG' if rnd.random() < 0.9 else 'ZYOBTWCQSXALM')
    limit = rnd.choice([0, 5, MOST_KWH, MOST_KWH + 1, 2 ** 32 - 1] if rnd.random() < 0.2 else [5]).to_bytes(4, 'little')
    if letter in 'ZY':
        return letter.encode() + bytes([rnd.choice([0, 1, 2, 3, 24, 25])])
    if letter == 'K':
        return b'K' + bytes([rnd.choice([0, 0, 0, 1, 2, 9])]) + limit + b'\7\0\0\0'
    if letter in 'RV':
        row = [rnd.choice([0, 0, 1, -1, 1000, -1000]) if i < 3 else 0 for i in range(24)]
        if rnd.random() < 0.1:
            row[rnd.randrange(24)] = rnd.choice([1001, -1001, 5])
        return letter.encode() + limit + b''.join(s.to_bytes(2, 'little', signed=True) for s in row)
    if letter == 'H':
        return b'H' + bytes([rnd.randrange(8)]) + limit
    if letter == 'G':
        return b'G' if rnd.random() < 0.15 else b''
    return letter.encode() + bytes(rnd.choice([0, 1, 2]) for _ in range(OPERANDS[letter]))


def random_stream(rnd):
    if rnd.random() < 0.15:
        return bytes(rnd.randrange(256) for _ in range(rnd.randrange(200)))
    begin = rnd.choice([b'Z', b'Y']) + bytes([rnd.choice([1, 2, 3, 5, 24])])
    stream = begin + b''.join(random_command(rnd) for _ in range(rnd.randrange(90)))
    return stream[:rnd.randrange(len(stream) + 1)] if rnd.random() < 0.2 else stream


def main():
    streams = int(sys.argv[1]) if len(sys.argv) > 1 else 1000
    rnd = random.Random(int(sys.argv[2]) if len(sys.argv) > 2 else 1)
    for n in range(streams):
        stream = random_stream(rnd)
        run = subprocess.run(['crates/hour/out/hour'], input=stream, capture_output=True)
        if run.returncode or run.stdout.decode().splitlines() != expected(stream):
            print(f'stream {n} differs: {stream.hex()}')
            return 1
    print(f'{streams} streams, all alike')
    return 0


if __name__ == '__main__':
    sys.exit(main())
