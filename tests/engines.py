#!/usr/bin/env python3
"""Compares the engines of programs, byte by byte: tests/engines.py PROGRAM OTHERS [LINES] [BOARDS] [SCRIPTS] [SEED]

OTHERS is a command, or several with commas between them. Each takes `show` as `fibs` does, and `many`, which runs an
engine on many inputs (rust/tests/engines/many.rs). Lines, boards and scripts are those of fuzz.py. Prints what differs,
how much was compared, and then `N passed, M failed`.
"""

import random
import shlex
import subprocess
import sys

import fuzz

# How many boards or scripts another program is given at once.
AT_ONCE = 200


def run(words, data=b''):
    done = subprocess.run(words, input=data, capture_output=True, check=False)
    return done.returncode, done.stdout, done.stderr


def first_difference(wanted, found):
    """The first lines that are not the same, cut short."""
    pairs = zip(wanted[1].split(b'\n'), found[1].split(b'\n'))
    for left, right in pairs:
        if left != right:
            return left[:300], right[:300]
    return (wanted[0], len(wanted[1]), wanted[2][-200:]), (found[0], len(found[1]), found[2][-200:])


def many(other, engine, inputs):
    """What another program's engine answers to each input."""
    told = run([*other, 'many', engine], b''.join(b'%d\n%s' % (len(data), data) for data in inputs))[1]
    for _ in inputs:
        head, _, told = told.partition(b'\n')
        status, out, err = map(int, head.split() or [-1, 0, 0])
        yield status, told[:out], told[out:out + err]
        told = told[out + err:]


class Engines:
    """A program and others, and what was compared."""

    def __init__(self, program, others, seed):
        self.program, self.others, self.rng = program, others, random.Random(seed)
        self.passed = self.failed = 0

    def same(self, what, wanted, found):
        self.passed += wanted == found
        self.failed += wanted != found
        if wanted != found:
            print('FAILED %s differs: %r, and not %r' % (what, *reversed(first_difference(wanted, found))))

    def same_of_many(self, engine, inputs, wanted):
        for other in self.others:
            for data, of_program, of_other in zip(inputs, wanted, many(other, engine, inputs)):
                self.same('%s of %.200r' % (engine, data), of_program, of_other)

    def show(self, lines):
        done = size = 0
        while done < lines:
            stream = b''.join(fuzz.batch(self.rng) for _ in range(40))
            wanted = run([self.program, 'show'], stream)
            for other in self.others:
                self.same('show', wanted, run([*other, 'show'], stream))
            done += wanted[1].count(b'\n')
            size += len(stream)
        print('show: %d lines of %d bytes' % (done, size), flush=True)

    def plays(self, boards):
        count = 0
        for done in range(0, boards, AT_ONCE):
            words = [fuzz.a_word(fuzz.plays_line(self.rng)).rstrip(b'\r') for _ in range(min(AT_ONCE, boards - done))]
            wanted = [run([self.program, 'plays', '--', word]) for word in words]
            self.same_of_many('plays', words, wanted)
            count += sum(out.count(b'move') for _, out, _ in wanted)
        print('plays: %d boards, %d plays' % (boards, count), flush=True)

    def replay(self, scripts):
        events = size = 0
        for done in range(0, scripts, AT_ONCE):
            texts = [fuzz.any_script(self.rng) for _ in range(min(AT_ONCE, scripts - done))]
            wanted = [run([self.program, 'replay'], text) for text in texts]
            self.same_of_many('replay', texts, wanted)
            events += sum(text.count(b'\n') for text in texts)
            size += sum(len(out) for _, out, _ in wanted)
        print('replay: %d scripts of %d lines, whose logs have %d bytes' % (scripts, events, size), flush=True)


def main():
    program, others = sys.argv[1], [shlex.split(words) for words in sys.argv[2].split(',')]
    numbers = [int(word) for word in sys.argv[3:]]
    lines, boards, scripts, seed = numbers + [40_000, 400, 300, 1008][len(numbers):]
    engines = Engines(program, others, seed)
    engines.show(lines)
    engines.plays(boards)
    engines.replay(scripts)
    print('%d passed, %d failed' % (engines.passed, engines.failed))
    return 1 if engines.failed else 0


if __name__ == '__main__':
    sys.exit(main())
