#!/usr/bin/env python3
"""bind_chains.py FILE..: binds each chain of `.before` that a need's answer uses twice, by a `let` at its start, and breaks lines that are still long. For the older kit (README.md).

A proof of a function answers needs, `NAME c = ..` or `NAME c κs = ..`, and reaches what is known there by `c .before .before ..`. This script rewrites the
answers of the files named, in place: `let b12 = c .before .. in` stands for the chain of twelve, and a longer one is bound from the next shorter.
It changes no meaning; the verdict is `rt`'s."""
import collections
import re
import sys

SHORT = 6  # chains up to this length stay as they are
WIDE = 400

CHAIN = re.compile(r"(?<![\w′₁₂])c((?: \.before){%d,})" % (SHORT + 1))
# what reads every record in reach stops at 128 of them: a place that is bound is one more, so such an answer keeps its chains
LOOKS_ROUND = re.compile(r"\b(?:omega|search|cc)\b")
ANSWER = re.compile(r"^(\S+)((?: t)? c(?: κs)?) =(.*)$", re.S)


def bound(body):
    """The body with each chain that it uses twice bound at its start."""
    counts = collections.Counter(chain.group(1).count(".before") for chain in CHAIN.finditer(body))
    lengths = sorted(length for length, times in counts.items() if times > 1)
    if not lengths or LOOKS_ROUND.search(body):
        return body
    lets, last, name = [], 0, "c"
    for length in lengths:
        lets.append(f"let b{length} = {name}{' .before' * (length - last)} in")
        last, name = length, f"b{length}"

    def short(chain):
        length = chain.group(1).count(".before")
        return f"b{length}" if length in lengths else chain.group(0)

    return "\n    " + "\n    ".join(lets) + "\n    " + CHAIN.sub(short, body).lstrip()


def broken(line):
    """The line, broken before brackets so that no part is wider than WIDE."""
    if len(line) <= WIDE or line.lstrip().startswith("--"):
        return line
    indent = len(line) - len(line.lstrip()) + 4
    cut = max(line.rfind(mark, indent, WIDE - 20) for mark in (" (", " ∙ ", " .before", " .1"))
    if cut < indent + 20:
        return line
    return line[:cut] + "\n" + broken(" " * indent + line[cut + 1 :])


def rewritten(text):
    """A proof file with each answer rewritten."""
    blocks = re.split(r"\n(?=\S)", text)
    for number, block in enumerate(blocks):
        answer = ANSWER.match(block)
        if answer and CHAIN.search(answer.group(3)):
            blocks[number] = f"{answer.group(1)}{answer.group(2)} ={bound(answer.group(3))}"
    return "\n".join(broken(line) for line in "\n".join(blocks).split("\n"))


if __name__ == "__main__":
    for file in sys.argv[1:]:
        with open(file, encoding="utf-8") as source:
            before = source.read()
        after = rewritten(before)
        if after != before:
            with open(file, "w", encoding="utf-8") as target:
                target.write(after)
            print(file)
