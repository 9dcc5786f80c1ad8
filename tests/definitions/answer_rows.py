#!/usr/bin/env python3
"""What a program of rows prints if no row differs, which its crate keeps as its file stdout.

    answer_rows.py CRATE

The rows are those of the crate's file stdin: after each table the program prints how many rows it has.
"""

import sys
from pathlib import Path

CRATES = Path(__file__).resolve().parents[2] / "crates"


def main():
    if len(sys.argv) != 2:
        sys.exit("usage: answer_rows.py CRATE")
    counts = []
    for line in (CRATES / sys.argv[1] / "stdin").read_text(encoding="utf-8").splitlines():
        word, name, *_ = line.split("\t")
        if word == "table":
            counts.append([name, 0])
        else:
            counts[-1][1] += 1
    for name, count in counts:
        print(f"{name}: {count} rows, 0 differ")


if __name__ == "__main__":
    main()
