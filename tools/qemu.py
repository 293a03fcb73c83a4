#!/usr/bin/env python3
"""Runs compiled functions on QEMU's user emulation, and holds what they do against `backend run`.

    tools/qemu.py                                          # the programs of examples/, by the table of README.md
    tools/qemu.py TARGET PACKAGE NAME BOUND [ARG..]        # one function of the package in a file

The object is compiled by ./backend, or by the program that BACKEND names, and put into a process of its machine by
tools/loader.c, which a cross compiler builds. Both answers are printed where they differ. What is not installed for a
target is skipped with a line. The status is 0 where nothing differed.
"""
import os
import re
import shutil
import struct
import subprocess
import sys
import tempfile

TOP = os.path.join(os.path.dirname(os.path.abspath(__file__)), "..")
PROGRAM = os.environ.get("BACKEND", os.path.join(TOP, "backend"))
STACK = 65_536
BASE = ["-O1", "-ffreestanding", "-fno-stack-protector", "-fno-builtin", "-nostdlib", "-static", "-Wl,-Ttext-segment=0x50000000"]
MACHINES = {
    "riscv64": (
        ["riscv64-linux-gnu-gcc", "-mno-relax", "-Wl,--no-relax"],
        "qemu-riscv64",
    ),
    "arm": (["arm-linux-gnueabihf-gcc", "-marm"], "qemu-arm"),
}
TRAPS = {1: "nil", 2: "bounds", 3: "divide", 4: "shift", 5: "stack", 6: "exit"}
# By the codes of an object's signatures: the width, 0 for a machine word, and whether a number has a sign.
TYPES = {2: (8, True), 3: (8, False), 4: (16, True), 5: (16, False), 6: (32, True), 7: (32, False), 8: (64, True)}
TYPES |= {9: (64, False), 10: (64, True), 11: (64, False), 12: (0, False), 13: (0, False)}
BOOL = 1


def sections(data):
    """The bytes of each section by its name."""
    if data[4] == 2:
        (start,) = struct.unpack_from("<Q", data, 40)
        fields, size = "<IIQQQQ", 64
    else:
        (start,) = struct.unpack_from("<I", data, 32)
        fields, size = "<IIIIII", 40
    rows = [struct.unpack_from(fields, data, start + size * n) for n in range(8)]
    names = data[rows[7][4] :]
    return {names[row[0] : names.index(b"\0", row[0])].decode(): data[row[4] : row[4] + row[5]] for row in rows[1:]}


def functions(data):
    """The address and the types of arguments and results of each function by its name."""
    parts = sections(data)
    size, fields = (24, "<IBBHQQ") if data[4] == 2 else (16, "<IIIBBH")
    found = []
    for at in range(size, len(parts[".symtab"]), size):
        row = struct.unpack_from(fields, parts[".symtab"], at)
        name, info, value = (row[0], row[1], row[4]) if data[4] == 2 else (row[0], row[3], row[1])
        if info & 15 == 2:
            text = parts[".strtab"]
            found.append((value, text[name : text.index(b"\0", name)].decode()))
    words = list(struct.unpack(f"<{len(parts['.gosig']) // 4}I", parts[".gosig"]))
    codes, at = words[1 : words[0] + 1], words[0] + 1
    result = {}
    for address, name in sorted(found):
        args, results = words[at], words[at + 1]
        types = [codes[place] for place in words[at + 2 : at + 2 + args + results]]
        result[name] = (address, types[:args], types[args:])
        at += 2 + args + results
    return result


def words_of(number, code, bits):
    """The words of an argument, the low one first."""
    width = TYPES.get(code, (8, False))[0] or bits
    number %= 2**width
    if bits == 64 and code in TYPES and TYPES[code][1] and number >= 2 ** (width - 1):
        number += 2**64 - 2**width
    if bits == 32 and width < 32 and code in TYPES and TYPES[code][1] and number >= 2 ** (width - 1):
        number += 2**32 - 2**width
    return [number >> shift & (2**bits - 1) for shift in range(0, max(width, bits), bits)]


def told(numbers, codes, bits):
    """The result words as `run` prints results."""
    texts = []
    for code in codes:
        width, signed = TYPES.get(code, (8, False))
        width = width or bits
        number = numbers.pop(0)
        if width > bits:
            number |= numbers.pop(0) << bits
        number %= 2**width
        if code == BOOL:
            texts.append("true" if number else "false")
        else:
            texts.append(str(number - 2**width if signed and number >= 2 ** (width - 1) else number))
    return texts


def on_machine(emulator, loader, path, name, args):
    """The line of the call on the emulated machine."""
    with open(path, "rb") as file:
        data = file.read()
    bits = 64 if data[4] == 2 else 32
    address, taken, given = functions(data)[name]
    words = [word for arg, code in zip(args, taken) for word in words_of(int(arg), code, bits)]
    count = sum(max(1, (TYPES.get(code, (8, False))[0] or bits) // bits) for code in given)
    command = [emulator, loader, path, address, STACK, count, *words]
    out = subprocess.run([str(word) for word in command], stdout=subprocess.PIPE, check=True, timeout=60).stdout.decode()
    head, _, tail = out.strip("\n").partition(" data ")
    if head.startswith("returned"):
        head = " ".join(["returned", *told([int(word) for word in head.split()[1:]], given, bits)])
    elif head.startswith("trapped"):
        head += " " + TRAPS[int(head.split()[1])]
    return head + (f" data {tail}" if tail else "")


class Machine:
    """A target whose objects can be run here."""

    def __init__(self, target, room):
        compiler, self.emulator = MACHINES[target]
        self.target, self.room = target, room
        self.loader = os.path.join(room, f"loader-{target}")
        self.lacks = next((tool for tool in (compiler[0], self.emulator) if not shutil.which(tool)), None)
        if not self.lacks:
            source = os.path.join(TOP, "tools", "loader.c")
            subprocess.run([*compiler, *BASE, "-o", self.loader, source], check=True)

    def holds(self, package, words):
        """Whether a call ends alike on both; None where the compiler refuses the package."""
        path = os.path.join(self.room, "object")
        with open(package, "rb") as text, open(path, "wb") as out:
            made = subprocess.run([PROGRAM, "compile", self.target, "1"], stdin=text, stdout=out, stderr=subprocess.PIPE)
        if made.returncode:
            print(f"skipped {package} for {self.target}: {made.stderr.decode().strip()}")
            return None
        with open(path, "rb") as text:
            run = subprocess.run([PROGRAM, "run", *words], stdin=text, stdout=subprocess.PIPE).stdout.decode().strip("\n")
        ours = on_machine(self.emulator, self.loader, path, words[0], words[2:])
        if ours != run:
            print(f"DIFFERS {package} for {self.target}: {' '.join(words)}\n  run:  {run}\n  qemu: {ours}")
        return ours == run


def examples():
    """The programs of the table in README.md, each with the words of its call."""
    with open(os.path.join(TOP, "README.md"), encoding="utf-8") as file:
        rows = re.findall(r"^\| `(\w+)` \|[^|]*\| `([^`]+)` \|", file.read(), re.M)
    return [(os.path.join(TOP, "examples", f"{name}.ssa"), words.split()) for name, words in rows]


def main():
    calls = {target: examples() for target in MACHINES}
    if len(sys.argv) > 4:
        calls = {sys.argv[1]: [(sys.argv[2], sys.argv[3:])]}
    answers = []
    with tempfile.TemporaryDirectory() as room:
        for target, those in calls.items():
            machine = Machine(target, room)
            if machine.lacks:
                print(f"skipped {target}: {machine.lacks} is not installed")
                continue
            answers += [machine.holds(package, words) for package, words in those]
    print(f"{answers.count(True)} alike, {answers.count(False)} differ")
    return 1 if False in answers else 0


if __name__ == "__main__":
    sys.exit(main())
