#!/usr/bin/env python3
"""Replaces the crates below bk_work by stand-ins, in a clone: python3 standins.py CLONE.

Kept word for word: the files of specs/ that are cited from above, the types that they name, and the public functions that
bk_work calls, with their contracts; but a body answers want of memory, and there are no proofs. Only for trials of proofs
in bk_work: never commit it with a change that is to be taken."""
import os, re, shutil, sys
ROOT = sys.argv[1] + "/crates"
FUNCS = {
    "bk_alloc": ["allocate_by"], "bk_calls": ["word_areas_by"], "bk_dump": ["claim_order"], "bk_elf": [], "bk_fixup": ["keys_of"],
    "bk_graph": ["is_joined", "layout", "split_critical", "clean"], "bk_link": ["is_linkable", "link"], "bk_live": [],
    "bk_rewrite": ["rewrite_by", "index_rules"], "bk_rule": ["copy_rules"], "bk_rv_emit": ["emit"], "bk_sched": ["has_own_numbers", "schedule"],
    "bk_dec64": ["decompose_by"], "bk_arm_emit": ["emit"], "bk_emit": [], "bk_arm_isa": [],
    "bk_rv_isa": [], "bk_shuffle": [], "bk_machine": [], "bk_rules_words": [], "bk_form": [], "bk_text": [], "bk_dump_laws": [],
}
LISTS = {"bk_rules_arm": "arm", "bk_rules_dec64": "dec64", "bk_rules_generic": "generic", "bk_rules_rv": "rv"}
WHOLE = {("bk_calls", "frame")}
BODY = {"decompose_by": "Err(RewriteError::Memory)", "word_areas_by": "Err(RewriteError::Memory)", "link": "Err(LinkError::Memory)", "rewrite_by": "Err(RewriteError::Memory)"}
TEXT = [("bk_link", re.compile(r"(IsErrOf result \(LinkError\.Text n\)) ↔ (.*) \}$"), r"(\1 → \2) × (n ≡ n) }")]

def read(p):
    return open(p, encoding="utf-8").read()

def items(text):
    """The items of a file: (head lines of docs and attributes + item)."""
    out, cur, lines = [], [], text.split("\n")
    i = 0
    while i < len(lines):
        l = lines[i]
        if l == "":
            if cur: cur.append(l)
            i += 1; continue
        if l.startswith("//!") or l.startswith("#!["):
            out.append(("inner", l)); i += 1; continue
        if l.startswith("//") or l.startswith("#["):
            cur.append(l); i += 1; continue
        block = [l]
        if l.endswith(";") or l.endswith("{}") or (l.endswith("}") and not l.startswith(" ") and "{" in l):
            pass
        else:
            i += 1
            while True:
                block.append(lines[i])
                if lines[i] in ("}", "{}", "};", "];") or (l.startswith(("use ", "pub use ", "ghost use ")) and lines[i].endswith(";")):
                    break
                if l.startswith(("const", "pub const", "pub(crate) const")) and lines[i].endswith(";"):
                    break
                i += 1
        if l.startswith(("use ", "pub use ", "ghost use ", "mod ", "pub mod ")):
            cur = [c for c in cur if c.startswith("#[cfg")]
        out.append(("item", "\n".join([c for c in cur if c] + block)))
        cur = []
        i += 1
    return out

def name_of(item):
    body = "\n".join(l for l in item.split("\n") if not l.startswith(("//", "#[")))
    m = re.match(r"(?:pub(?:\(crate\))? )?(fn|struct|enum|trait|const|type|mod|impl|use|ghost use)\b", body)
    kind = m.group(1) if m else "?"
    if kind == "impl":
        m = re.match(r"impl(?:<[^>]*(?:<[^>]*>)?[^>]*>)? (?:(?P<t>[\w<>, ':]+?) for )?(?P<n>\w+)", body)
        return kind, m.group("n"), (m.group("t") or "").split("<")[0]
    m = re.match(r"(?:pub(?:\(crate\))? )?(?:fn|struct|enum|trait|const|type|mod) (\w+)", body)
    return kind, m.group(1) if m else body, ""

WORD = re.compile(r"[\w]+")
class Crate:
    def __init__(self, name):
        self.name, self.mods, self.keep, self.specs = name, {}, set(), set()
        for dirpath, _, files in os.walk(f"{ROOT}/{name}/src"):
            for f in files:
                if f.endswith(".rt"):
                    mod = os.path.relpath(os.path.join(dirpath, f), f"{ROOT}/{name}/src")[:-3].replace("/", ".")
                    self.mods[mod] = items(read(os.path.join(dirpath, f)))
        self.types = {}
        for mod, its in self.mods.items():
            for k, it in its:
                if k == "item":
                    kind, n, t = name_of(it)
                    if kind in ("struct", "enum", "type"):
                        self.types[n] = mod

names = [n for n in FUNCS if os.path.isdir(f"{ROOT}/{n}")]
crates = {n: Crate(n) for n in names}
kept_specs, kept_types, done_funcs = set(), set(), set()
todo = []

def cite(text):
    for m in re.finditer(r"Rattle\.(bk_\w+)\.specs\.([\w.]+)", text):
        c, path = m.group(1), m.group(2).rstrip(".")
        if c not in crates: continue
        parts = path.split(".")
        if parts[0] in ("declared", "contracts"):
            n = [p for p in parts[1:] if p[:1].isupper()]
            if n: need_type(c, n[0])
        else:
            need_spec(c, path.split(".{")[0])

def need_spec(c, path):
    parts = path.split(".")
    while parts and not os.path.isfile(f"{ROOT}/{c}/specs/" + "/".join(parts) + ".antt"):
        parts.pop()
    if not parts: return
    f = "/".join(parts)
    if (c, f) in kept_specs: return
    kept_specs.add((c, f))
    cite(read(f"{ROOT}/{c}/specs/{f}.antt"))

def need_type(c, n):
    if c not in crates or (c, n) in kept_types or n not in crates[c].types: return
    kept_types.add((c, n))
    mod = crates[c].types[n]
    for k, it in crates[c].mods[mod]:
        if k != "item": continue
        kind, m, t = name_of(it)
        if m == n and (kind in ("struct", "enum", "type") or (kind == "impl" and t in ("Model", "From", "Drop"))):
            use_names(c, mod, it)

def use_names(c, mod, text):
    words = set(WORD.findall(text))
    for w in words:
        if w in crates[c].types: need_type(c, w)
    cite(text)
    for k, it in crates[c].mods[mod]:
        if k != "item": continue
        for crate, name in imports(it):
            if name in words:
                if crate in crates: need_type(crate, name)
        for g, name in ghosts(it):
            if name in words: cite(f"Rattle.{g}.{name}" if False else f"Rattle.{g}")

def imports(it):
    m = re.match(r"(?:pub )?use (bk_\w+)::(.*);$", it.replace("\n", " "), re.S)
    if not m: return []
    return [(m.group(1), n) for n in WORD.findall(m.group(2))]

def ghosts(it):
    m = re.match(r"ghost use Rattle\.(\S+?)\.\{(.*)\};$", it.replace("\n", " "), re.S)
    if not m:
        m2 = re.match(r"ghost use Rattle\.(\S+) as (\w+);$", it)
        return [(m2.group(1), m2.group(2))] if m2 else []
    out = []
    for n in m.group(2).split(","):
        n = n.strip()
        out.append((m.group(1), n.split(" as ")[-1].strip()))
    return out

# roots: what bk_work and the crates that stay cite
STAY = ["bk_work", "bk_callees", "bk_code_laws", "bk_core", "bk_share", "bk_piece", "bk_func", "bk_ops", "bk_num", "bk_io"]
for s in STAY:
    for dirpath, dirs, files in os.walk(f"{ROOT}/{s}"):
        dirs[:] = [d for d in dirs if d != "out"]
        for f in files:
            if f.endswith((".rt", ".antt")):
                t = read(os.path.join(dirpath, f))
                for m in re.finditer(r"Rattle\.(bk_rules_(?:arm|dec64|generic|rv))\.", t): pass
                cite(t)
funcs = {}
for c in names:
    for mod, its in crates[c].mods.items():
        whole = (c, mod) in WHOLE
        for k, it in its:
            if k != "item": continue
            kind, n, t = name_of(it)
            if whole or (kind == "fn" and n in FUNCS[c] and re.search(r"^pub fn", it, re.M)):
                if whole:
                    use_names(c, mod, it); continue
                if not whole:
                    head, _, _ = it.partition("\n{\n")
                    body = BODY.get(n, "Err(Memory)")
                    for cc, pat, rep in TEXT:
                        if cc == c: head = "\n".join(pat.sub(rep, l) for l in head.split("\n"))
                    head = re.sub(r"#\[tactic.*\]\n", "", head)
                    it2 = head + "\n{\n    " + body + "\n}"
                    funcs[(c, mod, n)] = it2
                    use_names(c, mod, it2)

def fit(it, words):
    """A use with the names alone that are used, or None."""
    flat = re.sub(r"\s+", " ", it)
    m = re.match(r"((?:pub )?(?:ghost )?use [\w.:]+?[.:]+)\{(.*)\};$", flat)
    if m:
        ns = [n.strip() for n in m.group(2).split(",") if n.strip()]
        keep = [n for n in ns if "◌" in n or n in ("[]",) or n.split(" as ")[-1].split("::")[-1].strip() in words]
        if not [n for n in keep if "◌" not in n and n != "[]"] and "Prelude" not in m.group(1): return None
        return f"{m.group(1)}{{{', '.join(keep)}}};" if keep else None
    n = re.search(r"([\w]+);$", flat)
    return it if n and n.group(1) in words else None

for c in names:
    cr = crates[c]
    base = f"{ROOT}/{c}"
    libs = []
    out = {}
    for mod, its in cr.mods.items():
        if mod == "lib": pass
        whole = (c, mod) in WHOLE
        body = []
        for k, it in its:
            if k != "item": continue
            kind, n, t = name_of(it)
            if kind in ("use", "ghost use", "mod"): continue
            if whole: body.append(it)
            elif (c, mod, n) in funcs and kind == "fn": body.append(funcs[(c, mod, n)])
            elif kind in ("struct", "enum", "type") and (c, n) in kept_types: body.append(it)
            elif kind == "impl" and (c, n) in kept_types and t in ("Model", "From"): body.append(it)
            elif kind == "impl" and t == "From" and n in ("LinkError",): body.append(it)
        if not body: continue
        text = "\n\n".join(body)
        words = set(WORD.findall(text))
        uses = []
        for k, it in its:
            if k != "item": continue
            kind, n, t = name_of(it)
            if kind in ("use", "ghost use") and not it.startswith(("pub use", "#[cfg(test)]")):
                if re.match(r"use crate::", it):
                    f = fit(it, {w for w in words if w in cr.types})
                else:
                    f = fit(it, words | ({"Memory"} if "Err(Memory)" in text else set()))
                if f: uses.append(f)
        if "Err(Memory)" in text and not any(re.search(r"\bMemory\b", u) and u.startswith("use") for u in uses) and mod != "lib":
            uses.append("use bk_ops::Memory;" if c != "bk_x" else "")
        out[mod] = "\n".join(uses) + "\n\n" + text + "\n"
    # lib
    lib = [it for k, it in cr.mods["lib"] if k == "inner" and it.startswith("//!")][:1] + ["#![tactic(auto)]", ""]
    libtext = out.pop("lib", "")
    tops = sorted({m.split(".")[0] for m in out})
    pubs = {name_of(it)[1] for k, it in cr.mods["lib"] if k == "item" and name_of(it)[0] == "mod" and "pub mod" in it}
    for m in tops: lib.append(("pub mod " if m in pubs else "mod ") + m + ";")
    offered = {n for (cc, n) in kept_types if cc == c} | {n for (cc, m, n) in funcs if cc == c}
    for m in out:
        if (c, m) in WHOLE: offered |= {name_of(it)[1] for k, it in cr.mods[m] if k == "item" and name_of(it)[0] in ("fn", "enum")}
    for k, it in cr.mods["lib"]:
        if k == "item" and it.startswith("pub use"):
            flat = re.sub(r"\s+", " ", it)
            if re.match(r"pub use bk_\w+::", flat) and re.search(r"\bMemory\b", flat):
                lib.append(flat); continue
            f = fit(it, offered)
            if f: lib.append(f)
    if c == "bk_emit": lib.append("pub use bk_piece::{Handle, Patch, Piece};")
    full_lib = "\n".join(lib) + "\n" + libtext
    # write
    shutil.rmtree(f"{base}/src"); shutil.rmtree(f"{base}/proofs", ignore_errors=True); shutil.rmtree(f"{base}/must-fail", ignore_errors=True)
    os.makedirs(f"{base}/src")
    open(f"{base}/src/lib.rt", "w").write(full_lib)
    for mod, text in out.items():
        p = f"{base}/src/" + mod.replace(".", "/") + ".rt"
        os.makedirs(os.path.dirname(p), exist_ok=True)
        open(p, "w").write(text)
    keep = sorted(f for (cc, f) in kept_specs if cc == c)
    for dirpath, _, files in os.walk(f"{base}/specs", topdown=False):
        for f in files:
            rel = os.path.relpath(os.path.join(dirpath, f), f"{base}/specs")[:-5]
            if rel not in keep: os.remove(os.path.join(dirpath, f))
    if keep:
        os.makedirs(f"{base}/specs", exist_ok=True)
        open(f"{base}/specs/Lib.antt", "w").write("".join(f"pub mod {f.replace('/', '.')}\n" for f in keep if "/" not in f))
    else:
        shutil.rmtree(f"{base}/specs", ignore_errors=True)
for c, w in LISTS.items():
    base = f"{ROOT}/{c}"
    for d in ("src", "proofs", "specs", "must-fail"): shutil.rmtree(f"{base}/{d}", ignore_errors=True)
    os.makedirs(f"{base}/src"); os.makedirs(f"{base}/specs")
    open(f"{base}/specs/Lib.antt", "w").write("pub mod Lines\n")
    open(f"{base}/specs/Lines.antt", "w").write(f"use Rattle.std.specs.Prelude.{{List, []}}\nuse Rattle.bk_rule.specs.declared.trees.Rule.{{Rule}}\n\nunfoldable pub {w}_list : List Rule\n{w}_list = []\n")
    open(f"{base}/src/lib.rt", "w").write(f"""//! A stand-in.
#![tactic(auto)]

ghost use Rattle.std.specs.Prelude.{{◌≡◌, IfOk}};
ghost use Rattle.{c}.specs.Lines.{{{w}_list}};

use bk_rule::{{Memory, Rule}};
use std::alloc::Global;

pub fn {w}_rules(alloc: Global) -> Result<Vec<Rule>, Memory>
    ensures list {{ IfOk result (λ rules. rules.items ≡ {w}_list) }}
{{
    Err(Memory)
}}
""")
for c in names: print(c, sorted(f for (cc, f) in kept_specs if cc == c), sorted(n for (cc, n) in kept_types if cc == c), [n for (cc, m, n) in funcs if cc == c])
