#!/usr/bin/env python3
"""Counts what is proved, from what the gate printed, and prints it as a table.

    python3 tools/counts.py LOG        (from the repository's root; LOG holds what .ci/run printed)

Functions and assumed C functions are as the gate names them. A definition is an `abbrev`, `record` or `data` in specs/,
or one that is `unfoldable`. Lines of proofs and definitions are those that are neither empty nor a comment. Must-fail
edits are the files of must-fail/.
"""
import re
import sys
from pathlib import Path

DEFINITION = re.compile(r"^(abbrev|record|data|unfoldable|pub record|pub data|pub abbrev)\b")


def lines(files):
    for file in files:
        for line in file.read_text(encoding="utf-8").splitlines():
            if line.strip() and not line.strip().startswith(("--", "//")):
                yield line


def crates():
    for line in Path("crates.txt").read_text(encoding="utf-8").splitlines():
        yield line.split(":")[0].split()[0]


def summaries(log):
    """For each crate, its functions and its assumed C functions; a crate with tests has two summaries."""
    found, crate = {}, None
    for line in log.splitlines():
        if line.startswith("== "):
            crate = line[3:].split()[0].rstrip(":")
        summary = re.search(r"\bfunctions=(\d+)", line)
        if summary and crate:
            axioms = re.search(r"\baxioms=(\d+)", line)
            count = (int(summary.group(1)), int(axioms.group(1)) if axioms else 0)
            found[crate] = max(found.get(crate, (0, 0)), count)
    return found


def main():
    found = summaries(Path(sys.argv[1]).read_text(encoding="utf-8"))
    print("| Crate | Functions | Assumed C functions | Definitions | Lines of them | Lines of proofs | Must-fail edits |")
    print("|---|---|---|---|---|---|---|")
    total = [0] * 6
    for crate in crates():
        folder = Path("crates") / crate
        specs = [f for f in sorted(folder.glob("specs/*.antt")) if f.name != "Lib.antt"]
        functions, axioms = found.get(crate, (0, 0))
        row = [
            functions,
            axioms,
            sum(1 for line in lines(specs) if DEFINITION.match(line)),
            sum(1 for _ in lines(specs)),
            sum(1 for _ in lines(sorted(folder.glob("proofs/**/*.antt")))),
            len(list(folder.glob("must-fail/*.edit"))),
        ]
        total = [a + b for a, b in zip(total, row)]
        print(f"| `{crate}` | " + " | ".join(f"{n:,}" for n in row) + " |")
    total[1] = max(found.get(crate, (0, 0))[1] for crate in crates())
    print("| all | " + " | ".join(f"{n:,}" for n in total) + " |")


main()
