#!/usr/bin/env python3
"""Counts the places of src/ that docs/DESIGN-PASS.md speaks of: `design_places.py [TOP] [--list POINT]`.

1  enums that one variant with a value and others without make an Option or a Result of; numbers and flags for refusals, fates, faults and kinds
2  functions whose text is the same but for names, types and numbers
3  `while` and `loop`; `for` over a range whose index only picks the element of one slice
4  functions that compare, copy, convert or print by hand
5  functions of eight parameters and more; clauses that stand in three functions and more
6  a length beside a buffer in one parameter list or struct
7  a number or a flag that says which step to run
8  answers that only ask for a search that the check makes by itself
"""
import collections
import glob
import os
import re
import sys

WORD = r"[A-Za-z_][A-Za-z0-9_]*"


def functions(path):
    """(name, head, clauses, body) of each function of a file, tests and closures aside"""
    lines = open(path).read().split("\n")
    k = 0
    while k < len(lines):
        m = re.match(r"^(\s*)(?:pub(?:\(crate\))? )?(?:unsafe )?(?:extern \"C\" )?fn (" + WORD + ")", lines[k])
        if not m:
            k += 1
            continue
        end = next((e for e in range(k, len(lines)) if lines[e] == m.group(1) + "}"), k)
        text = lines[k:end + 1]
        cut = next((i for i, l in enumerate(text) if l == m.group(1) + "{" or l.endswith("{") and not re.match(r"\s*(requires|ensures)", l)), 0)
        head = " ".join(l.strip() for l in text[:cut + 1])
        yield m.group(2), head, "\n".join(text[:cut + 1]), "\n".join(text[cut + 1:])
        k = end + 1


def parameters(head):
    inside = re.search(r"\((.*?)\)\s*(?:->|requires|ensures|\{|$)", head)
    return [p.strip() for p in re.split(r",(?![^\[(<]*[\])>])", inside.group(1)) if p.strip()] if inside else []


def enums(text):
    for m in re.finditer(r"^(?:pub(?:\(crate\))? )?enum (" + WORD + r") \{\n(.*?)^\}", text, re.S | re.M):
        yield m.group(1), re.findall(r"^    (" + WORD + r")(\(|\s*\{)?", m.group(2), re.M), m.start()


def shape(body):
    names = {}
    out = []
    for t in re.findall(WORD + r"|\d[\w.]*|[^\s\w]+", re.sub(r"//.*", "", body)):
        if re.match(r"\d", t):
            out.append("0")
        elif t in ("u8", "u16", "u32", "u64", "usize", "i64", "f32"):
            out.append("T")
        elif t in ("let", "mut", "if", "else", "for", "in", "while", "match", "return", "as", "break", "continue", "true", "false", "fn", "len"):
            out.append(t)
        else:
            out.append(names.setdefault(t, f"v{len(names)}"))
    return " ".join(out)


def places(top):
    found = collections.defaultdict(list)
    shapes = collections.defaultdict(list)
    clauses = collections.defaultdict(set)
    for path in sorted(glob.glob(top + "/crates/*/src/*.rt")):
        text = open(path).read()
        short = path[len(top) + 8:].replace("/src/", "/").replace("/lib.rt", "").replace("/main.rt", "")
        line_of = lambda at: text.count("\n", 0, at) + 1
        for name, variants, at in enums(text):
            bare = [v for v, args in variants if not args]
            if len(variants) - len(bare) == 1 or any(v == "Refused" for v, _ in variants):
                found[1].append(f"{short}: enum {name} {{{', '.join(v for v, _ in variants)}}}")
        for m in re.finditer(r"\b(refusal|fate|fault|kind|state|turn): u(?:8|32)\b|^const (?:A|NO|FEW)_\w+: u(?:8|32)", text, re.M):
            found[1].append(f"{short}:{line_of(m.start())}: {m.group(0)}")
        for i, l in enumerate(text.split("\n"), 1):
            if re.match(r"^\s*(while|loop)\b", l):
                found[3].append(f"{short}:{i}: {l.strip()}")
        for name, head, contract, body in functions(path):
            where = f"{short}::{name}"
            ps = parameters(head)
            for m in re.finditer(r"^( *)for (\w+) in 0\.\.(.+)\.len\(\) \{\n(.*?)^\1\}", body, re.S | re.M):
                i, s = m.group(2), re.escape(m.group(3))
                if not re.search(r"(?<![\w.])" + i + r"\b", re.sub(s + r"\[" + i + r"\]", "", m.group(4))):
                    found[3].append(f"{where}: for {i} in 0..{m.group(3)}.len()")
            if body.count("\n") >= 4:
                shapes[shape(body)].append(where)
            if re.match(r"(same|equal|eq|copy|clone|is_same|print_|show|put_decimal|push_hex|decimal|wide|long)", name):
                found[4].append(where)
            if len(ps) >= 8:
                found[5].append(f"{where}: {len(ps)} parameters")
            for m in re.finditer(r"requires (?:\w+ )?\{(.*?)\}\n", contract, re.S):
                clauses[" ".join(m.group(1).split())].add(where)
            slices = [p.split(":")[0].strip() for p in ps if re.search(r"&(?:'\w+ )?(?:mut )?\[|\[\w+; ", p)]
            sizes = [p.split(":")[0].strip() for p in ps if re.fullmatch(r"(?:n|m|np|ng|count|nodes_count|len|used)\s*:\s*(?:usize|u32)", p)]
            if slices and sizes:
                found[6].append(f"{where}: {', '.join(slices)} with {', '.join(sizes)}")
            for p in ps:
                if re.fullmatch(r"(kind|step|which|mode|by_time|shift)\s*:\s*(u8|u32|bool)", p):
                    found[7].append(f"{where}: {p}")
        for m in re.finditer(r"^(?:pub(?:\(crate\))? )?struct (\w+) \{\n(.*?)^\}", text, re.S | re.M):
            fields = re.findall(r"(\w+): ([^\n]+),", m.group(2))
            if any("[" in t for _, t in fields) and any(re.fullmatch(r"len|count|used|n", f) for f, _ in fields):
                found[6].append(f"{short}: struct {m.group(1)} with a length")
    for s, fs in shapes.items():
        if len(fs) > 1:
            found[2].append(", ".join(fs))
    for c, fs in sorted(clauses.items()):
        if len(fs) >= 3:
            found[5].append(f"clause in {len(fs)} functions: {c}")
    for path in sorted(glob.glob(top + "/crates/*/proofs/**/Answers.antt", recursive=True)):
        for m in re.finditer(r"^(\S+) c = (search rules|omega arith)$", open(path).read(), re.M):
            found[8].append(f"{os.path.relpath(path, top + '/crates')}: {m.group(1)} = {m.group(2)}")
    return found


def main():
    words = sys.argv[1:]
    shown = words[words.index("--list") + 1] if "--list" in words else None
    tops = [w for i, w in enumerate(words) if w != "--list" and (i == 0 or words[i - 1] != "--list")]
    found = places(tops[0] if tops else ".")
    for point in range(1, 9):
        if shown in (None, str(point)):
            print(f"{point}: {len(found[point])}")
        if shown == str(point):
            print("\n".join("  " + p for p in found[point]))


main()
