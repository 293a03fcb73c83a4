#!/usr/bin/env python3
"""Measures how many steps `backend run` makes on each machine in a second of processor time.

    bench/steps.py [PROGRAM]

PROGRAM is the built program, and ./backend where none is named. An object with one function, a loop of ten instructions
that loads, stores, multiplies, shifts, adds, compares and branches, is made for each machine, without the compiler. A
short run shows that the result is right, and a long one of 100 million steps is timed.
"""
import os
import resource
import struct
import subprocess
import sys
import tempfile

TOP = os.path.join(os.path.dirname(os.path.abspath(__file__)), "..")
SHORT, LONG = 1_000, 10_000_000
NAMES = ["", ".text", ".pool", ".data", ".gosig", ".symtab", ".strtab", ".shstrtab"]

RISCV64 = [
    0x00A13023,  # sd x10, 0(x2), the argument to its cell
    0x00013283,  # ld x5, 0(x2)
    0xFFF28313,  # addi x6, x5, -1
    0x00613023,  # sd x6, 0(x2)
    0x026283B3,  # mul x7, x5, x6
    0x00744433,  # xor x8, x8, x7
    0x00341493,  # slli x9, x8, 3
    0x00940433,  # add x8, x8, x9
    0x12345537,  # lui x10, 0x12345
    0x00A435B3,  # sltu x11, x8, x10
    0xFC031EE3,  # bne x6, x0, -36
    0x00040513,  # addi x10, x8, 0, the result
    0x00008067,  # jalr x0, 0(x1)
]

ARM = [
    0xE59D0000,  # ldr r0, [sp], the argument's word
    0xE2401001,  # sub r1, r0, #1
    0xE58D1000,  # str r1, [sp]
    0xE0020190,  # mul r2, r0, r1
    0xE0233002,  # eor r3, r3, r2
    0xE1A04183,  # mov r4, r3, lsl #3
    0xE0833004,  # add r3, r3, r4
    0xE3015234,  # movw r5, #0x1234
    0xE3510000,  # cmp r1, #0
    0x1AFFFFF5,  # bne to the first instruction
    0xE58D3004,  # str r3, [sp, #4], the result's word
    0xE12FFF1E,  # bx lr
]


def expected(rounds, bits):
    """What the loop leaves in its result, as the machines print it: signed."""
    x = 0
    for n in range(rounds, 0, -1):
        x = (x ^ n * (n - 1)) * 9 % 2**bits
    return x - 2**bits if x >= 2 ** (bits - 1) else x


def aligned(n):
    return (n + 7) // 8 * 8


class Machine:
    def __init__(self, name, words, wide):
        self.name, self.words, self.wide = name, words, wide
        self.bits = 64 if wide else 32
        # the code of the type int64 or int32 in lists of signatures
        self.type = 8 if wide else 6

    def number(self, n):
        return struct.pack("<Q" if self.wide else "<I", n)

    def symbol(self):
        place, size = 0x10000, 4 * len(self.words)
        if self.wide:
            return struct.pack("<IBBHQQ", 1, 18, 0, 1, place, size)
        return struct.pack("<IIIBBH", 1, place, size, 18, 0, 1)

    def program_header(self, address, flags, offset, size):
        at = [self.number(n) for n in (offset, address, address, size, size)]
        flag = struct.pack("<I", flags)
        parts = [struct.pack("<I", 1), flag, *at] if self.wide else [struct.pack("<I", 1), *at, flag]
        return b"".join(parts) + self.number(8)

    def object(self):
        entry = 24 if self.wide else 16
        head, program, section = (64, 56, 64) if self.wide else (52, 32, 40)
        contents = [
            b"",
            struct.pack(f"<{len(self.words)}I", *self.words),
            b"",
            b"",
            struct.pack("<6I", 1, self.type, 1, 1, 0, 0),
            bytes(entry) + self.symbol(),
            b"\0loop\0",
            b"".join(name.encode() + b"\0" for name in NAMES),
        ]
        body, begins = b"", [0]
        for number, part in enumerate(contents[1:], 1):
            at = head + 3 * program + len(body)
            gap = aligned(at) - at if number <= 5 else 0
            begins.append(at + gap)
            body += bytes(gap) + part
        body += bytes(-(head + 3 * program + len(body)) % 8)
        shoff = head + 3 * program + len(body)
        return self.header(head, program, section, shoff) + self.programs(contents, begins) + body + self.sections(contents, begins, entry)

    def header(self, head, program, section, shoff):
        kind = struct.pack("<HHI", 2, 243 if self.wide else 40, 1)
        flags = 0 if self.wide else 0x05000000
        sizes = struct.pack("<IHHHHHH", flags, head, program, 3, section, 8, 7)
        ident = b"\x7fELF" + bytes([2 if self.wide else 1, 1, 1]) + bytes(9)
        return ident + kind + self.number(0) + self.number(head) + self.number(shoff) + sizes

    def programs(self, contents, begins):
        rows = [(0x10000, 5), (0x2000000, 4), (0x4000000, 6)]
        return b"".join(self.program_header(*row, begins[n], len(contents[n])) for n, row in enumerate(rows, 1))

    def sections(self, contents, begins, entry):
        # type, flags, address, link, info, alignment, entry size
        rows = [
            (0, 0, 0, 0, 0, 0, 0),
            (1, 6, 0x10000, 0, 0, 4, 0),
            (1, 2, 0x2000000, 0, 0, 8, 0),
            (1, 3, 0x4000000, 0, 0, 8, 0),
            (1, 0, 0, 0, 0, 4, 0),
            (2, 0, 0, 6, 1, 8, entry),
            (3, 0, 0, 0, 0, 1, 0),
            (3, 0, 0, 0, 0, 1, 0),
        ]
        out, name = b"", 0
        for number, (kind, flags, address, link, info, align, size) in enumerate(rows):
            out += struct.pack("<II", name, kind) + self.number(flags) + self.number(address)
            out += self.number(begins[number]) + self.number(len(contents[number]))
            out += struct.pack("<II", link, info) + self.number(align) + self.number(size)
            name += len(NAMES[number]) + 1
        return out


def run(program, file, rounds):
    words = [program, "run", "loop", str(10 * rounds + 100), str(rounds)]
    with open(file, "rb") as source:
        start = processor_time()
        ran = subprocess.run(words, stdin=source, capture_output=True, text=True)
    return ran, processor_time() - start


def processor_time():
    used = resource.getrusage(resource.RUSAGE_CHILDREN)
    return used.ru_utime + used.ru_stime


def main():
    program = sys.argv[1] if len(sys.argv) > 1 else os.path.join(TOP, "backend")
    failed = False
    with tempfile.TemporaryDirectory() as room:
        for machine in (Machine("riscv64", RISCV64, True), Machine("arm", ARM, False)):
            file = os.path.join(room, machine.name)
            with open(file, "wb") as out:
                out.write(machine.object())
            ran, spent = run(program, file, SHORT)
            wanted = f"returned {expected(SHORT, machine.bits)}\n"
            if ran.returncode or ran.stdout != wanted:
                print(f"{machine.name}: status {ran.returncode}, {ran.stdout.strip() or ran.stderr.strip()}, and not {wanted.strip()}")
                failed = True
                continue
            ran, spent = run(program, file, LONG)
            steps = 10 * LONG + len(machine.words) - 10
            print(f"{machine.name}: {steps / spent / 1e6:.1f} million steps a second ({steps:,} steps in {spent:.2f} s), {ran.stdout.strip()}")
    return 1 if failed else 0


if __name__ == "__main__":
    sys.exit(main())
