#!/usr/bin/env python3
"""cited_crates.py [--write]: the crates that a line of crates.txt lists without need; --write takes them out.

A crate is needed where a file cites it. Where there is code it is needed also if it declares a type, which a struct that is handed on may hold.
A name that is no crate here is a library of the toolchain, and stays."""
import pathlib
import re
import sys

ROOT = pathlib.Path(__file__).resolve().parent.parent


def text_of(crate):
    """All that the crate's code, definitions and proofs say."""
    files = [file for part in ("src", "specs", "proofs") for file in (ROOT / "crates" / crate / part).glob("**/*")]
    return "".join(file.read_text(encoding="utf-8") for file in files if file.suffix in (".rt", ".antt"))


def is_needed(name, text):
    """Whether the text of a crate names the other, or may handle its types."""
    if not (ROOT / "crates" / name).exists() or re.search(rf"\bRattle\.{name}\.|(?<![\w:.]){name}::", text):
        return True
    return re.search(r"\bfn \w+\(", text) is not None and re.search(r"(?m)^pub (struct|enum) ", text_of(name)) is not None


def main():
    """Goes through crates.txt, line by line."""
    lines = (ROOT / "crates.txt").read_text(encoding="utf-8").split("\n")
    for number, line in enumerate(lines):
        head, colon, listed = line.partition(":")
        if line.startswith("#") or not colon:
            continue
        crate = head.split()[0]
        text = text_of(crate)
        needed = [name for name in listed.split() if is_needed(name, text)]
        if needed != listed.split():
            print(f"{crate}: {' '.join(name for name in listed.split() if name not in needed)}")
            lines[number] = " ".join([f"{head}:", *needed])
    if "--write" in sys.argv[1:]:
        (ROOT / "crates.txt").write_text("\n".join(lines), encoding="utf-8")


if __name__ == "__main__":
    main()
