#!/usr/bin/env python3
"""Measures how long `backend compile` takes with one worker, with two and with four, and holds their objects to be the same.

    bench/workers.py [PROGRAM]

PROGRAM is the built program, and ./backend where none is named. Two packages of 4,096 functions are compiled for each target:
that of `gen 4096`, most of whose values are dead, and one without dead values. The time is that of the clock, the least of
five; beside it stands its ratio to the time with one worker. The status is 1 where two objects differ.
"""
import os
import subprocess
import sys
import time

TOP = os.path.join(os.path.dirname(os.path.abspath(__file__)), "..")
FUNCTIONS, VALUES, REPEATS = 4096, 40, 5
OPS = ["Add64", "Xor64", "Mul64", "Sub64"]


def live_package():
    """A package in which each value takes the one before it."""
    lines = []
    for number in range(FUNCTIONS):
        lines += [f"f{number} func(a int64, b int64) int64", "b1:", "v1 = InitMem <mem>", "v2 = Arg <int64> {a}", "v3 = Arg <int64> {b}"]
        for value in range(4, 4 + VALUES):
            op = OPS[(number + value) % len(OPS)]
            lines.append(f"v{value} = {op} <int64> v{value - 1} v{2 + value % 2}")
        last = 4 + VALUES
        lines += [f"v{last} = MakeResult <int64,mem> v{last - 1} v1", f"Ret v{last}", ""]
    return "\n".join(lines).encode()


def compiled(program, target, workers, text):
    """The object, and the least time of some runs."""
    times = []
    for _ in range(REPEATS):
        begun = time.monotonic()
        done = subprocess.run([program, "compile", target, str(workers)], input=text, capture_output=True)
        times.append(time.monotonic() - begun)
        if done.returncode != 0:
            sys.exit(f"compile {target} {workers}: status {done.returncode}: {done.stderr.decode()}")
    return done.stdout, min(times)


def main():
    program = sys.argv[1] if len(sys.argv) > 1 else os.path.join(TOP, "backend")
    generated = subprocess.run([program, "gen", str(FUNCTIONS)], capture_output=True, check=True).stdout
    same = True
    for name, text in (("gen", generated), ("live", live_package())):
        for target in ("riscv64", "arm"):
            one, alone = compiled(program, target, 1, text)
            print(f"{name} {FUNCTIONS} {target}: 1 worker {alone:.2f} s", end="")
            for workers in (2, 4):
                other, taken = compiled(program, target, workers, text)
                same = same and other == one
                print(f", {workers} workers {taken:.2f} s ({taken / alone:.2f})", end="")
            print()
    if not same:
        print("FAILED: two objects differ")
    return 0 if same else 1


if __name__ == "__main__":
    sys.exit(main())
