#!/usr/bin/env python3
"""What the program soak should print, by the second implementation.

usage: soak.py [ROUNDS [SEED]]
"""

import sys

import model

MARKS = 50000
MASK = (1 << 64) - 1


class Noise:
    def __init__(self, seed):
        self.state = seed | 1

    def octet(self):
        x = self.state
        x ^= x << 13 & 0xFFFFFFFF
        x ^= x >> 17
        x ^= x << 5 & 0xFFFFFFFF
        self.state = x
        return x >> 8 & 0xFF

    def marks(self, count):
        zeros, bad = [(128, 0), (32, 2), (4, 1), (100, 16)][self.octet() % 4]
        out = []
        for _ in range(count):
            x = self.octet()
            out.append('0' if x < zeros else model.BAD if x < zeros + bad else '1')
        return out


class Tally:
    def __init__(self):
        self.marks = self.frames = self.faults = self.awaited = 0
        self.digest = 0xCBF29CE484222325

    def note(self, *numbers):
        for number in numbers:
            self.digest = (self.digest ^ number) * 0x100000001B3 & MASK

    def __str__(self):
        return (f'{self.marks} marks, {self.frames} frames, {self.faults} faults, '
                f'{self.awaited} frames behind a gap heard, digest {self.digest:016x}')


def hear(receiver, marks, kind, octets, buffer, tally):
    line, came = model.Record('marks', marks), False
    while True:
        taken, end = receiver.listen(line, buffer, 65535)
        tally.marks += taken
        tally.note(taken)
        if end[0] == 'frame':
            tally.frames += 1
            user = receiver.look(buffer)
            tally.note(end[1], *user)
            came = (end[1], user) == (kind, octets)
            receiver.release()
        elif end[0] == 'fault':
            came = False
            tally.faults += 1
            tally.note(end[1], end[3])
        elif end[0] == 'line empty':
            return came


def soak(form, plans, rounds, seed):
    tally, noise, receiver, buffer = Tally(), Noise(seed), model.Receiver(form), [0] * 255
    for turn in range(rounds):
        kind, first, rest = plans[turn % 4]
        marks = noise.marks(MARKS)
        octets = first + [noise.octet() for _ in range(rest)]
        marks += ['1'] * form.gap + form.frame(kind, octets)
        tally.awaited += hear(receiver, marks, kind, octets, buffer, tally)
    return tally


def main():
    rounds = int(sys.argv[1]) if len(sys.argv) > 1 else 4
    seed = int(sys.argv[2]) if len(sys.argv) > 2 else 1
    print('FT1.2:', soak(model.Ft12(8), [(1, [], 8), (2, [], 5), (3, [], 0), (4, [], 0)], rounds, seed))
    print('FT2:', soak(model.Ft2(20, 3), [(1, [], 20), (2, [2], 4), (2, [0], 2), (2, [15], 17)], rounds, seed))


main()
