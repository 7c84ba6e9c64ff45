#!/usr/bin/env python3
"""Gives this repository's definitions, lemmas, record fields and constructors the spelling of Rattle's guide (CONTRACT_STYLE.md, "Names"). It ran once, in the
port to today's Rattle, on what port.py had made (docs/PORT.md), and is not for crates that are turned already.

usage: tools/own_names.py list     the names, old and new
       tools/own_names.py turn     respells them in crates/*/specs, proofs and src, once, after port.py
"""
import collections
import os
import re
import sys

ROOT = os.path.dirname(os.path.dirname(os.path.abspath(__file__)))
DECL = re.compile(r"^(\s*)((?:abbrev |unfoldable |pub |package )*)([^\s(){};,:]+) :(?= )", re.M)
DATA = re.compile(r"^\s*(?:pub )?(?:data|record) (\S+)", re.M)

def files(ext, *parts):
    for c in sorted(os.listdir(os.path.join(ROOT, "crates"))):
        for part in parts:
            for folder, dirs, fs in os.walk(os.path.join(ROOT, "crates", c, part)):
                dirs.sort()
                for f in sorted(fs):
                    if f.endswith(ext):
                        yield os.path.join(folder, f)

def read(p):
    with open(p, encoding="utf-8") as f:
        return f.read()

def snake(w):
    w = re.sub(r"([a-z0-9₀-₉])([A-Z])", lambda m: m.group(1) + "_" + m.group(2).lower(), w)
    return w

def own():
    """Each name that a file of specs/ or proofs/ declares, with the files; those that answer a goal are not ours."""
    found = collections.defaultdict(set)
    for p in files(".antt", "specs", "proofs"):
        t = read(p)
        for m in DECL.finditer(t):
            name = m.group(3)
            rest = t[m.end():m.end() + 60].lstrip()
            if rest.startswith(("tie.", "goal.")):
                continue
            found[name].add(os.path.relpath(p, ROOT))
    return found

# words of std and of arithmetic that a lemma's name may join by a dash to another word
WORDS = {"length", "append", "take", "drop", "set", "sets", "get_or", "map", "add", "mul", "sub", "div", "mod", "suc", "zero", "power", "min"}
# new names that would fall together with another name, and what stands for them
# (a lemma gets _lem, and its definition the plain name)
APART = {n: n.replace("-", "_") + "_lem" for n in (
    "after-by among-held answer-by factory-of fifos-cleared held-reason in-part part-first receive-cleared receive-mode refusal-by register-at "
    "step-change step-signal taken-all told-by transmit-cleared transmit-mode wide-stored write-refusal in-range number-of or-else of-int ones-in"
).split()}
# lemmas that port.py respelled, and that would fall together with a definition that is respelled here
RESPELLED = {n: n + "_lem" for n in "by_answer call_step one_less read_answer".split()}
RESPELLED_IN = {"by_answer": ("fates/proofs/Fits",), "call_step": ("fates/proofs/Along",), "one_less": ("fates/proofs/Fits",), "read_answer": ("channel_groups/proofs/Told", "receive/proofs/Laws")}
# declared with their parameters before the colon
ALSO = {"registerShown": "register_shown", "outputValues": "output_values"}


def functions():
    """The functions that specs/ define: what a dash may join."""
    out = set(WORDS)
    for p in files(".antt", "specs"):
        t = read(p)
        for m in DECL.finditer(t):
            if not m.group(1):
                out.add(snake(m.group(3).replace("-", "_")))
    return out


def table():
    """Each own name in the older spelling, with the new one."""
    known = functions()
    out = {}
    for n in own():
        if not re.match(r"^[a-z]", n) or not ("-" in n or re.match(r"^[a-z].*[A-Z]", n)):
            continue
        words = [snake(w) for w in n.split("-")]
        new = words[0]
        for k in range(1, len(words)):
            joined = words[k - 1] in known and words[k] in known
            new += ("-" if joined else "_") + words[k]
        out[n] = APART.get(n, new)
    return out


TOKEN = re.compile(r"[A-Za-z_][^\s(){}\[\];,.:|`\"]*")


def tokens():
    """Every name that stands in antt text or in Rattle code, with where."""
    out = collections.defaultdict(set)
    for p in list(files(".antt", "specs", "proofs")) + list(files(".rt", "src")):
        for line in read(p).split("\n"):
            line = line.split("//")[0] if p.endswith(".rt") else line.split("--")[0]
            for m in TOKEN.finditer(line):
                out[m.group(0)].add(os.path.relpath(p, ROOT))
    return out


def turned(text, names):
    return TOKEN.sub(lambda m: names.get(m.group(0), m.group(0)), text)


if __name__ == "__main__":
    names = table()
    if sys.argv[1:2] == ["list"]:
        for n in sorted(names):
            print(n, names[n])
        for n in sorted(RESPELLED):
            print(n, RESPELLED[n])
    elif sys.argv[1:2] == ["turn"]:
        names.update(ALSO)
        for p in list(files(".antt", "specs", "proofs")) + list(files(".rt", "src")):
            here = dict(names)
            for n, new in RESPELLED.items():
                if p.endswith(".antt") and any(x in p for x in RESPELLED_IN[n]):
                    here[n] = new
            t = read(p)
            u = turned(t, here)
            if u != t:
                with open(p, "w", encoding="utf-8") as f:
                    f.write(u)
    else:
        sys.exit(__doc__)
