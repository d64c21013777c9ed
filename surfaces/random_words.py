#!/usr/bin/env python3
"""random_words.py FILE LENGTH COUNT [SEED]: how many of COUNT random words the program decides.

Each word has LENGTH letters, generators of the surface file FILE and their inverses, each letter as likely
as any other but for the inverse of the letter before it. Each is given to `flipper classify FILE WORD` with
the default budgets. The output tells how many words got each verdict, and how long the runs took in the
mean and at most, in milliseconds. The same SEED (0 without it) gives the same words."""
import json
import os
import random
import subprocess
import sys
import time

here = os.path.dirname(os.path.abspath(__file__))
program = os.path.join(here, '..', 'crates', 'flipper', 'out', 'flipper')


def random_word(names, length, source):
    letters = []
    while len(letters) < length:
        letter = source.choice(names), source.choice((1, -1))
        if letters and letters[-1] == (letter[0], -letter[1]):
            continue
        letters.append(letter)
    return '.'.join(name if sign > 0 else name + '^-1' for name, sign in letters)


def main():
    if len(sys.argv) not in (4, 5):
        sys.exit(__doc__)
    path, length, count = sys.argv[1], int(sys.argv[2]), int(sys.argv[3])
    source = random.Random(int(sys.argv[4]) if len(sys.argv) == 5 else 0)
    with open(path) as file:
        names = [g['name'] for g in json.load(file)['generators']]
    verdicts, times = {}, []
    for _ in range(count):
        word = random_word(names, length, source)
        start = time.perf_counter()
        run = subprocess.run([program, 'classify', path, word], capture_output=True)
        times.append(1000 * (time.perf_counter() - start))
        if run.returncode:
            sys.exit('%s: %s' % (word, run.stderr.decode()))
        verdict = run.stdout.split()[0].decode()
        verdicts[verdict] = verdicts.get(verdict, 0) + 1
    decided = count - verdicts.get('unknown', 0)
    print('%s, length %d: %d of %d decided' % (os.path.basename(path), length, decided, count))
    for verdict in sorted(verdicts):
        print('  %s: %d' % (verdict, verdicts[verdict]))
    print('  milliseconds: %.0f in the mean, %.0f at most' % (sum(times) / count, max(times)))


main()
