"""Compare a program with the model on random inputs.

    compare.py PROGRAM BINARY [--count N] [--seed S]

Input number i is made from seed S + i alone, so `--seed X --count 1` makes
the one of seed X again.  The first difference ends the run.
"""

import argparse
import collections
import random
import subprocess
import sys

import generate
import model

TIMEOUT = 30  # seconds for one run of the binary


def make_input(program, seed):
    return generate.INPUTS[program](random.Random(seed))


def run_binary(binary, data):
    """What the binary prints; a failure is told as text instead."""
    try:
        done = subprocess.run([binary], input=data, capture_output=True, timeout=TIMEOUT)
    except subprocess.TimeoutExpired:
        return b'(no end within %d seconds)' % TIMEOUT
    if done.returncode or done.stderr:
        return done.stdout + b'(exit %d, stderr %r)' % (done.returncode, done.stderr)
    return done.stdout


# The words after the first that belong to a row's kind.
NUMBERED = {b'FAULT', b'REFUSED'}
TWO_WORDS = {b'LATE LAST', b'GIVEN UP', b'NO TICKET', b'CLEAR yes', b'CLEAR no'}


def kind_of(row, row_before):
    """The kind of a row, for the count of what was seen."""
    words = row.split(b' ')
    if row.startswith(b'FAULT 16 '):
        return b'16 at %b of %b' % (words[2], row_before.split(b':')[1])
    if row.startswith(b'RECORD '):
        return words[0] + b' ' + words[1].split(b':')[0]
    if words[0] in NUMBERED or b' '.join(words[:2]) in TWO_WORDS:
        return b' '.join(words[:2])
    return words[0]


def count_rows(kinds, output):
    row_before = b''
    for row in output.split(b'\n')[:-1]:
        kinds[kind_of(row, row_before).decode()] += 1
        row_before = row


def reduce_input(differs, data):
    """A smaller input that still differs, by leaving out ever smaller pieces."""
    size = len(data) // 2
    while size:
        start = 0
        while start < len(data):
            shorter = data[:start] + data[start + size:]
            if differs(shorter):
                data = shorter
            else:
                start += size
        size //= 2
    return data


def show_difference(args, seed, data):
    def outputs(text):
        return run_binary(args.binary, text), model.PROGRAMS[args.program](text)

    def differs(text):
        binary, right = outputs(text)
        return binary != right

    print(f'difference at seed {seed}')
    for title, text in ('input', data), ('reduced', reduce_input(differs, data)):
        binary, right = outputs(text)
        print(f'{title}: {text!r}\nbinary: {binary!r}\nmodel: {right!r}')


def compare(args):
    """True if no input tells the two apart."""
    kinds = collections.Counter()
    for seed in range(args.seed, args.seed + args.count):
        data = make_input(args.program, seed)
        output = model.PROGRAMS[args.program](data)
        if run_binary(args.binary, data) != output:
            show_difference(args, seed, data)
            return False
        count_rows(kinds, output)
    seen = ', '.join(f'{kind} {count}' for kind, count in sorted(kinds.items()))
    print(f'{args.program}: {args.count} inputs from seeds {args.seed} on, no difference; {seen}')
    return True


def main():
    parser = argparse.ArgumentParser(description=__doc__.split('\n')[0])
    parser.add_argument('program', choices=sorted(generate.INPUTS))
    parser.add_argument('binary')
    parser.add_argument('--count', type=int, default=1000)
    parser.add_argument('--seed', type=int, default=1)
    sys.exit(0 if compare(parser.parse_args()) else 1)


if __name__ == '__main__':
    main()
