#!/usr/bin/env python3
"""Plays random scripts through the console and compares every answer with the second implementation's.

usage: compare.py CONSOLE [--seed S] [--scripts N] [--lines L]
       compare.py --write STDIN STDOUT [--seed S] [--lines L] [--first FILE]

The first form runs N scripts of L commands each, from the seeds S, S + 1, ..; the first difference is printed with its
script. The second writes a script and its answers into files: the lines of FILE, the directed cases, and one random script.
"""

import argparse
import subprocess
import sys

import console
import scripts


def answers(script):
    desk = console.Console()
    return [desk.answer(line) for line in script]


def play(program, script):
    text = ''.join(line + '\n' for line in script)
    run = subprocess.run([program], input=text, capture_output=True, text=True, check=False)
    return run.stdout.split('\n')[:-1], run.returncode


def differs(program, seed, lines):
    script = scripts.Maker(seed).script(lines)
    expected = answers(script)
    heard, status = play(program, script)
    for at, (want, got) in enumerate(zip(expected, heard)):
        if want != got:
            return at, script, want, got
    if len(heard) != len(expected) or status:
        return len(heard), script, f'{len(expected)} answers', f'{len(heard)} answers, status {status}'
    return None


def main():
    parser = argparse.ArgumentParser(usage=__doc__)
    parser.add_argument('console', nargs='?')
    parser.add_argument('--seed', type=int, default=1)
    parser.add_argument('--scripts', type=int, default=100)
    parser.add_argument('--lines', type=int, default=200)
    parser.add_argument('--write', nargs=2, metavar=('STDIN', 'STDOUT'))
    parser.add_argument('--first')
    args = parser.parse_args()
    if args.write:
        script = []
        if args.first:
            with open(args.first, encoding='ascii') as first:
                script = first.read().splitlines()
        script += scripts.cases() + scripts.Maker(args.seed).script(args.lines)
        for path, lines in zip(args.write, (script, answers(script))):
            with open(path, 'w', encoding='ascii') as out:
                out.writelines(line + '\n' for line in lines)
        return 0
    for seed in range(args.seed, args.seed + args.scripts):
        found = differs(args.console, seed, args.lines)
        if found:
            at, script, want, got = found
            print(f'seed {seed}, command {at + 1} of the script below')
            print('\n'.join(script[:at + 1]))
            print(f'expected: {want}\nheard:    {got}')
            return 1
    print(f'{args.scripts} scripts, {args.scripts * args.lines} commands, seeds {args.seed} to {args.seed + args.scripts - 1}: no difference')
    return 0


sys.exit(main())
