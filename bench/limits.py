#!/usr/bin/env python3
"""Compiles packages at the limits of the language, and tells how their time grows.

    bench/limits.py [PROGRAM]

PROGRAM is the built program, and ./backend where none is named. Each kind of package is compiled for riscv64 and for arm with
one worker, at a quarter of its limit and at the limit. A row tells the bytes of the text, the processor's seconds, and the
seconds for each megabyte of text as a multiple of those of the package of 4,096 generated functions. Then the greatest count
of values across a call is sought that a frame has room for, and the refusal of one more is shown.
"""
import os
import resource
import subprocess
import sys

TOP = os.path.join(os.path.dirname(os.path.abspath(__file__)), "..")
OPENING = ["b1:", "v1 = InitMem <mem>", "v2 = Arg <int32> {a}", "v3 = Arg <int32> {b}"]


def function(name, lines):
    return [f"{name} func(a int32, b int32) int32"] + lines


def ending(value, number):
    return [f"v{number} = MakeResult <int32,mem> v{value} v1", f"Ret v{number}"]


def values(count):
    """One block of so many values, each of which takes the one before it and one far before it."""
    lines = [f"v{n} = {('Add32', 'Xor32')[n % 2]} <int32> v{n - 1} v{max(2, n - 90)}" for n in range(4, count)]
    return function("f", OPENING + lines + ending(count - 1, count))


def branches(count):
    """So many ifs, one after the other, each with a phi behind it."""
    lines, last, number = list(OPENING), 2, 4
    for place in range(count):
        base = 3 * place
        head, left, right, join = base + 1, base + 2, base + 3, base + 4
        if place > 0:
            lines.append(f"b{head}: <- b{left - 3} b{right - 3}")
            lines.append(f"v{number} = Phi <int32> v{last} v{last + 1}")
            last, number = number, number + 1
        lines.append(f"v{number} = Less32 <bool> v{last} v3")
        lines.append(f"If v{number} -> b{left} b{right}")
        lines += [f"b{left}: <- b{head}", f"v{number + 1} = Add32 <int32> v{last} v3", f"Plain -> b{join}"]
        lines += [f"b{right}: <- b{head}", f"v{number + 2} = Xor32 <int32> v{last} v3", f"Plain -> b{join}"]
        last, number = number + 1, number + 3
    lines += [f"b{3 * count + 1}: <- b{3 * count - 1} b{3 * count}", f"v{number} = Phi <int32> v{last} v{last + 1}"]
    return function("f", lines + ending(number, number + 1))


def nested(count):
    """So many ifs, each in the first branch of the one around it."""
    lines, number = list(OPENING), 4
    for depth in range(count):
        if depth > 0:
            lines.append(f"b{depth + 1}: <- b{depth}")
        lines += [f"v{number} = Add32 <int32> v{2 if depth == 0 else number - 2} v3", f"v{number + 1} = Less32 <bool> v{number} v2"]
        lines.append(f"If v{number + 1} -> b{depth + 2} b{count + 2}")
        number += 2
    lines += [f"b{count + 1}: <- b{count}", f"Plain -> b{count + 2}"]
    preds = " ".join(f"b{depth + 1}" for depth in range(count + 1))
    args = " ".join(f"v{4 + 2 * depth}" for depth in range(count)) + f" v{number - 2}"
    lines += [f"b{count + 2}: <- {preds}", f"v{number} = Phi <int32> {args}"]
    return function("f", lines + ending(number, number + 1))


def phis(count):
    """A loop with so many phis, each of which takes the next one."""
    first, changed = 4, 4 + count
    lines = OPENING + ["Plain -> b2", "b2: <- b1 b3"]
    lines += [f"v{first + n} = Phi <int32> v{2 + n % 2} v{first + (n + 1) % count}" for n in range(count)]
    lines += [f"v{changed} = Less32 <bool> v{first} v3", f"If v{changed} -> b3 b4", "b3: <- b2", "Plain -> b2", "b4: <- b2"]
    return function("f", lines + ending(first, changed + 1))


def calls(count):
    """So many calls with 63 arguments and a result."""
    params = ", ".join(f"p{n} int32" for n in range(63))
    lines = [f"g func({params}) int32", "b1:", "v1 = InitMem <mem>", "v2 = Arg <int32> {p62}", "v3 = MakeResult <int32,mem> v2 v1", "Ret v3"]
    body, memory, last, number = list(OPENING), 1, 2, 4
    for _ in range(count):
        args = " ".join(f"v{(last, 2, 3)[n % 3]}" for n in range(63))
        body.append(f"v{number} = StaticLECall <int32,mem> {{g}} {args} v{memory}")
        body += [f"v{number + 1} = SelectN <int32> [0] v{number}", f"v{number + 2} = SelectN <mem> [1] v{number}"]
        last, memory, number = number + 1, number + 2, number + 3
    body += [f"v{number} = MakeResult <int32,mem> v{last} v{memory}", f"Ret v{number}"]
    return lines + function("f", body)


def across(count):
    """So many values that are made before a call and taken after it."""
    lines = list(OPENING)
    lines += [f"v{n} = {('Add32', 'Xor32')[n % 2]} <int32> v{n - 1} v3" for n in range(4, 4 + count)]
    number = 4 + count
    lines += [f"v{number} = StaticLECall <int32,mem> {{f}} v2 v3 v1", f"v{number + 1} = SelectN <int32> [0] v{number}", f"v{number + 2} = SelectN <mem> [1] v{number}"]
    memory, last, number = number + 2, number + 1, number + 3
    for n in range(4, 4 + count):
        lines.append(f"v{number} = Xor32 <int32> v{last} v{n}")
        last, number = number, number + 1
    return function("f", lines + [f"v{number} = MakeResult <int32,mem> v{last} v{memory}", f"Ret v{number}"])


def compiled(program, target, lines):
    """The status, the line of a refusal, the text's bytes and the processor's seconds."""
    text = ("\n".join(lines) + "\n").encode()
    before = resource.getrusage(resource.RUSAGE_CHILDREN)
    done = subprocess.run([program, "compile", target, "1"], input=text, capture_output=True)
    after = resource.getrusage(resource.RUSAGE_CHILDREN)
    seconds = after.ru_utime + after.ru_stime - before.ru_utime - before.ru_stime
    return done.returncode, done.stderr.decode().strip(), len(text), seconds


def boundary(program, target):
    """The most values across a call that have room in a frame, and the refusal of one more; a text has at most 8,188."""
    low, high = 1, 8189
    while low + 1 < high:
        middle = (low + high) // 2
        if compiled(program, target, across(middle))[0] == 0:
            low = middle
        else:
            high = middle
    return low, compiled(program, target, across(high))[1]


def main():
    program = sys.argv[1] if len(sys.argv) > 1 else os.path.join(TOP, "backend")
    generated = subprocess.run([program, "gen", "4096"], capture_output=True, check=True).stdout.decode().split("\n")
    kinds = [("values of one block", values, 16384), ("ifs, one after the other", branches, 1365), ("ifs, one in the other", nested, 1300),
             ("phis of one loop", phis, 4096), ("calls with 63 arguments", calls, 480)]
    failed = False
    for target in ("riscv64", "arm"):
        status, line, size, seconds = compiled(program, target, generated)
        base = seconds / size
        print(f"{target}: gen 4096: {size:,} bytes, {seconds:.2f} s")
        for name, made, most in kinds:
            for count in (most // 4, most):
                status, line, size, seconds = compiled(program, target, made(count))
                print(f"{target}: {count:,} {name}: {size:,} bytes, {seconds:.2f} s, {seconds / size / base:.1f} times the time per byte" + (f", status {status}: {line}" if status else ""))
                failed = failed or status not in (0, 1)
        count, line = boundary(program, target)
        print(f"{target}: {count:,} values across a call have room in a frame; of one more: {line}")
    return 1 if failed else 0


if __name__ == "__main__":
    sys.exit(main())
