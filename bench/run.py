#!/usr/bin/env python3
"""Times the built programs on files of 150, 300 and 600 offers, for every pair of kinds of rules.

    (cd crates/choose && rt run); (cd crates/checker && rt run); python3 bench/run.py

It writes its files to a temporary folder and prints a table: seconds to choose, seconds to check the certificate, and
the memory of the chooser.
"""
import os
import random
import resource
import struct
import subprocess
import sys
import tempfile
import time

CRATES = os.path.join(os.path.dirname(os.path.abspath(__file__)), '..', 'crates')
CHOOSE = os.path.join(CRATES, 'choose', 'out', 'choose')
CHECK = os.path.join(CRATES, 'checker', 'out', 'checker')
KINDS = {1: 'limits', 2: 'volunteers', 3: 'links', 4: 'rows'}


def row(n, offers):
    return sum(1 << i for i in offers).to_bytes((n + 7) // 8, 'little')


def limits(n):
    """Eight groups, with seven smaller ones in each."""
    groups = []
    size = n // 8
    for a in range(8):
        outer = list(range(a * size, (a + 1) * size))
        groups.append((outer, int(size * 0.6)))
        part = max(1, size // 7)
        for b in range(7):
            inner = outer[b * part:(b + 1) * part]
            if inner:
                groups.append((inner, max(1, int(len(inner) * 0.7))))
    groups = groups[:64]
    return bytes([1, len(groups)]) + b''.join(struct.pack('<H', most) + row(n, g) for g, most in groups)


def volunteers(n):
    """Half as many volunteers as offers, each for six offers."""
    count = n // 2
    rows = b''.join(row(n, random.sample(range(n), min(n, 6))) for _ in range(count))
    return bytes([2]) + struct.pack('<H', count) + rows


def links(n):
    towns = min(n, 600)
    ends = b''.join(struct.pack('<HH', random.randrange(towns), random.randrange(towns)) for _ in range(n))
    return bytes([3]) + struct.pack('<H', towns) + ends


def rows(n):
    return bytes([4, 251, 64]) + bytes(random.randrange(251) for _ in range(64 * n))


MAKE = {1: limits, 2: volunteers, 3: links, 4: rows}


def timed(command):
    start = time.time()
    done = subprocess.run(command, capture_output=True, text=True)
    return time.time() - start, done


def main():
    random.seed(7)
    print(f'{"offers":>6}  {"first":10} {"second":10} {"size":>4}  {"choose s":>8} {"check s":>8}')
    with tempfile.TemporaryDirectory() as folder:
        offers, sheet = os.path.join(folder, 'offers'), os.path.join(folder, 'sheet')
        for n in (150, 300, 600):
            weights = b''.join(struct.pack('<I', random.randrange(1000001)) for _ in range(n))
            for a in KINDS:
                for b in KINDS:
                    with open(offers, 'wb') as f:
                        f.write(struct.pack('<H', n) + weights + MAKE[a](n) + MAKE[b](n))
                    took, done = timed([CHOOSE, offers, sheet])
                    size = sum(line.startswith('size') for line in done.stdout.split('\n'))
                    checked, verdict = timed([CHECK, offers, sheet])
                    word = '' if verdict.stdout == 'accepted\n' else '  ' + verdict.stdout.strip()
                    print(f'{n:6}  {KINDS[a]:10} {KINDS[b]:10} {size:4}  {took:8.2f} {checked:8.2f}{word}')
    memory = resource.getrusage(resource.RUSAGE_CHILDREN).ru_maxrss // 1024
    print(f'largest memory of a run: {memory} MB')


if __name__ == '__main__':
    sys.exit(main())
