#!/usr/bin/env python3
"""Tries each printed rewrite rule whose variables are numbers of 8 bits or bools on all their values.

    tools/rules8.py PROGRAM

PROGRAM is the executable, as crates/bk_main/out/bk_main; its command `rules` prints the rules. Each of them that has such
variables alone becomes a C function that compares the values of its two sides for all numbers of its variables and of
its constants; the formulas of the ops are written here anew. Without a C compiler nothing is tried, and the status is 0;
else the status is 1 where a rule has two values.
"""
import os
import re
import shutil
import subprocess
import sys
import tempfile

TOKEN = re.compile(r"\s*(=>|&&|<<|>>|==|!=|<=|[A-Za-z_][A-Za-z0-9_.]*|[0-9]+|[()\[\]{}<>:,+\-|^*&])")
LEVELS = [["==", "!=", "<", "<="], ["+", "-", "|", "^"], ["*", "<<", ">>", "&"]]
BOOL = 1
FORMULAS = r"""
#include <stdint.h>
#include <stdio.h>
typedef uint64_t u;
typedef int64_t s;
static u cut(int w, u n) { return w == 64 ? n : n & (((u)1 << w) - 1); }
static s sign(int w, u n) { return w == 64 ? (s)n : (s)(cut(w, n) ^ ((u)1 << (w - 1))) - (s)((u)1 << (w - 1)); }
static u shl(u x, u k) { return k > 63 ? 0 : x << k; }
static u shr(u x, u k) { return k > 63 ? 0 : x >> k; }
static s sar(s x, u k) { return x >> (k > 63 ? 63 : k); }
static int isPowerOfTwo(s n) { return n > 0 && (n & (n - 1)) == 0; }
static s log2_(s n) { s k = 0; while (n > 1) { n >>= 1; k++; } return k; }
static s divs(int w, u x, u y) { s a = sign(w, x), b = sign(w, y); return b == 0 ? 0 : b == -1 ? (s)(0 - (u)a) : a / b; }
static s mods(int w, u x, u y) { s a = sign(w, x), b = sign(w, y); return b == 0 ? a : b == -1 ? 0 : a % b; }
"""


class NotHere(Exception):
    """The rule has an op or a variable that is not tried here."""


def tokens(text):
    found, at = [], 0
    text = text.rstrip()
    while at < len(text):
        token = TOKEN.match(text, at)
        if not token:
            raise SystemExit(f"not a rule: {text}")
        found.append(token[1])
        at = token.end()
    return found


class Reader:
    def __init__(self, text):
        self.rest = tokens(text)

    def next(self, wanted=None):
        token = self.rest.pop(0)
        if wanted and token != wanted:
            raise SystemExit(f"{wanted} expected, and not {token}")
        return token

    def at(self, token):
        return bool(self.rest) and self.rest[0] == token

    def expression(self, level=0):
        if level == len(LEVELS):
            return self.operand()
        left = self.expression(level + 1)
        while self.rest and self.rest[0] in LEVELS[level]:
            left = (self.next(), left, self.expression(level + 1))
        return left

    def operand(self):
        token = self.next()
        if token in "-^":
            return (token, self.operand())
        if token == "(":
            inner = self.expression()
            self.next(")")
            return inner
        if token.isdigit():
            return int(token)
        if self.at("("):
            self.next()
            args = [self.expression()]
            while self.at(","):
                self.next()
                args.append(self.expression())
            self.next(")")
            return (token, *args)
        return token

    def tree(self):
        token = self.next()
        if token != "(":
            return token
        op, number, args = self.next(), None, []
        if self.at("<") or self.at("{"):
            raise NotHere
        if self.at("["):
            self.next()
            number = self.expression()
            self.next("]")
        while not self.at(")"):
            args.append(self.tree())
        self.next(")")
        return (op, number, args)

    def rule(self):
        left, conditions = self.tree(), []
        while self.at("&&"):
            self.next()
            conditions.append(self.expression())
        self.next("=>")
        return left, conditions, self.tree()


def shape(op):
    """The width of an op's value, and those of its arguments."""
    row = re.fullmatch(r"(Add|Sub|Mul|And|Or|Xor|Div|Mod)(8|16|32|64)u?", op)
    if row:
        return int(row[2]), [int(row[2])] * 2
    row = re.fullmatch(r"(Neg|Com)(8|16|32|64)", op)
    if row:
        return int(row[2]), [int(row[2])]
    row = re.fullmatch(r"(Lsh|Rsh)(8|16|32|64)U?x(8|16|32|64)", op)
    if row:
        return int(row[2]), [int(row[2]), int(row[3])]
    row = re.fullmatch(r"(Eq|Neq|Less|Leq)(8|16|32|64)U?", op)
    if row:
        return BOOL, [int(row[2])] * 2
    row = re.fullmatch(r"(SignExt|ZeroExt|Trunc)(8|16|32|64)to(8|16|32|64)", op)
    if row:
        return int(row[3]), [int(row[2])]
    row = re.fullmatch(r"Const(8|16|32|64)", op)
    if row:
        return int(row[1]), []
    fixed = {"ConstBool": (BOOL, []), "Not": (BOOL, [BOOL]), "AndB": (BOOL, [BOOL] * 2), "OrB": (BOOL, [BOOL] * 2)}
    fixed["CondSelect"] = (8, [8, 8, BOOL])
    if op not in fixed:
        raise NotHere
    return fixed[op]


def find(tree, width, values, constants):
    """Collects the variables of a left side, with their widths; each `_` becomes a variable of its own."""
    if isinstance(tree, str):
        name = f"any{len(values)}" if tree == "_" else tree
        if values.setdefault(name, width) != width or width not in (8, BOOL):
            raise NotHere
        return name
    op, number, args = tree
    if isinstance(number, str):
        own = shape(op)[0]
        if constants.setdefault(number, own) != own or own not in (8, BOOL):
            raise NotHere
    return op, number, [find(*it, values, constants) for it in zip(args, shape(op)[1])]


def number(expression):
    if isinstance(expression, int):
        return f"((s){expression}LL)"
    if isinstance(expression, str):
        return expression
    name, *args = expression
    args = [number(it) for it in args]
    if len(args) == 1 and name in "-^":
        return f"((s)({'0 - ' if name == '-' else '~'}(u){args[0]}))"
    if name in ("+", "-", "*", "&", "|", "^"):
        return f"((s)((u){args[0]} {name} (u){args[1]}))"
    if name in ("==", "!=", "<", "<="):
        return f"((s)({args[0]} {name} {args[1]}))"
    if name in ("<<", ">>"):
        return f"((s)shl({args[0]}, {args[1]}))" if name == "<<" else f"sar({args[0]}, {args[1]})"
    if name in ("ult", "ule"):
        return f"((s)((u){args[0]} {'<' if name == 'ult' else '<='} (u){args[1]}))"
    if name.startswith("zext"):
        return f"((s)cut({name[4:]}, {args[0]}))"
    if name in ("isPowerOfTwo", "log2"):
        return f"{'log2_' if name == 'log2' else name}({args[0]})"
    raise NotHere


def value(tree):
    if isinstance(tree, str):
        return tree
    op, beside, args = tree
    width, places = shape(op)
    if op.startswith("Const"):
        return f"cut({width}, {number(beside)})"
    args = [value(it) for it in args]
    one, w = places[0], re.match(r"[A-Za-z]+?(?=\d|$)", op)[0]
    signs = [f"sign({place}, {it})" for place, it in zip(places, args)]
    plain = {"Add": "+", "Sub": "-", "Mul": "*", "And": "&", "Or": "|", "Xor": "^"}
    tests = {"Eq": "==", "Neq": "!=", "Less": "<", "Leq": "<="}
    if w in plain:
        return f"cut({width}, {args[0]} {plain[w]} {args[1]})"
    if w in ("Neg", "Com"):
        return f"cut({width}, {'0 - ' if w == 'Neg' else '~'}{args[0]})"
    if w in ("Div", "Mod"):
        if op.endswith("u"):
            rest = "0" if w == "Div" else args[0]
            return f"({args[1]} == 0 ? {rest} : {args[0]} {'/' if w == 'Div' else '%'} {args[1]})"
        return f"cut({width}, {'divs' if w == 'Div' else 'mods'}({one}, {args[0]}, {args[1]}))"
    if w == "Lsh":
        return f"cut({width}, shl({args[0]}, {args[1]}))"
    if w == "Rsh":
        return f"shr({args[0]}, {args[1]})" if "U" in op else f"cut({width}, sar({signs[0]}, {args[1]}))"
    if w in tests:
        args = args if op.endswith("U") or w in ("Eq", "Neq") else signs
        return f"((u)({args[0]} {tests[w]} {args[1]}))"
    if w in ("SignExt", "ZeroExt", "Trunc"):
        return f"cut({width}, {signs[0] if w == 'SignExt' else args[0]})"
    if op == "CondSelect":
        return f"({args[2]} ? {args[0]} : {args[1]})"
    return {"Not": "(1 ^ {0})", "AndB": "({0} & {1})", "OrB": "({0} | {1})"}[op].format(*args)


def function(text, place):
    """A C function that tells whether a rule's sides are equal for all values."""
    left, conditions, right = Reader(text).rule()
    values, constants = {}, {}
    left = find(left, 8 if isinstance(left, str) else shape(left[0])[0], values, constants)
    loops = [f"for (u {name} = 0; {name} < {256 if width == 8 else 2}; {name}++)" for name, width in values.items()]
    for name, width in constants.items():
        loops.append(f"for (s {name} = {-128 if width == 8 else 0}; {name} < {128 if width == 8 else 2}; {name}++)")
    holds = " && ".join(number(it) for it in conditions) or "1"
    lines = [f"static int rule{place}(void) {{", *loops]
    lines.append(f"if ({holds}) {{ if ({value(left)} != {value(right)}) return 0; }}")
    return "\n".join([*lines, "return 1;", "}"])


def main():
    if not shutil.which("cc"):
        print("rules8: no C compiler, so nothing is tried")
        return 0
    printed = subprocess.run([sys.argv[1], "rules"], capture_output=True, text=True, check=True).stdout
    rules, functions = [], []
    for text in printed.splitlines():
        if text.startswith("("):
            try:
                functions.append(function(text, len(rules)))
                rules.append(text)
            except NotHere:
                continue
    calls = [f"tried = rule{k}(); if (!tried) {{ printf(\"%d\\n\", {k}); }} all &= tried;" for k in range(len(rules))]
    body = "\n".join([FORMULAS, *functions, "int main(void) { int all = 1, tried;", *calls, "return all ? 0 : 1; }"])
    with tempfile.TemporaryDirectory() as room:
        with open(os.path.join(room, "rules.c"), "w") as it:
            it.write(body)
        subprocess.run(["cc", "-O2", "-fwrapv", "-o", f"{room}/rules", f"{room}/rules.c"], check=True)
        ran = subprocess.run([f"{room}/rules"], capture_output=True, text=True)
    for place in ran.stdout.split():
        print(f"two values: {rules[int(place)]}")
    print(f"{len(rules)} rules were tried on all values, {len(ran.stdout.split())} failed")
    return ran.returncode


if __name__ == "__main__":
    sys.exit(main())
