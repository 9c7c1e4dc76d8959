#!/usr/bin/env python3
"""Counts the instructions of `plan` on circuits at its limits, which do not depend on what else the machine does.

Usage: bench/count.py [--functions N] [PROGRAM] [OTHER]

PROGRAM is crates/reo/out/reo where none is named (./reo --prove builds it). OTHER is a program with the same words: its count is
told too, and how many times as many PROGRAM takes. With --functions N also the N functions that cost most, without what they call.
It wants valgrind. The build without proofs cannot be counted: valgrind does not read it, and most of its instructions are checks.
"""
import os
import re
import subprocess
import sys
import tempfile

from regions import HERE, fan, limits, merger


def near_the_limit():
    """One region in which 65,533 vertices grow, with 4,096 firings."""
    lossy = lambda a, ends: [f"lossy {a} {b}" for b in ends]
    side = lambda a, count: [f"in {a}"] + lossy(a, [f"{a}{k}" for k in range(count)]) + [f"sync {a} J"]
    middle = ["in A"] + lossy("A", ["B0", "J", "K"]) + lossy("A", [f"B{k}" for k in range(1, 12)])
    return middle + side("P", 9) + side("Q", 7) + [f"out B{k}" for k in range(12)]


def fans(count):
    """So many fans of twelve beside one another."""
    renamed = lambda line, k: re.sub(r"\b([A-Z]\w*)", rf"\1_{k}", line)
    return [renamed(line, k) for k in range(count) for line in fan(12)]


CASES = [
    ("merger of twelve", merger(12)),
    ("fan of 4,096 firings", fan(12)),
    ("65,533 vertices", near_the_limit()),
    ("nine fans", fans(9)),
    ("all limits", limits()),
]


def profile(program, document, room):
    """The file of callgrind's counts of one run."""
    out = os.path.join(room, "counts")
    words = ["valgrind", "--tool=callgrind", f"--callgrind-out-file={out}", program, "plan"]
    with open(document) as source:
        subprocess.run(words, stdin=source, stdout=subprocess.DEVNULL, stderr=subprocess.DEVNULL, check=True)
    return out


def millions(program, document, room):
    with open(profile(program, document, room)) as counts:
        return int(re.search(r"^(?:totals|summary): (\d+)", counts.read(), re.M)[1]) / 1e6


def functions(program, document, room, most):
    """The functions that cost most, each with its own instructions."""
    out = profile(program, document, room)
    said = subprocess.run(["callgrind_annotate", out], capture_output=True, text=True, check=True).stdout
    lines = [line for line in said.splitlines() if re.match(r" *[\d,]+ \(.*:", line)]
    return [re.sub(r"^( *[\d,]+).*?\S:(\S.*?)( \[.*)?$", r"\1  \2", line) for line in lines[:most]]


def main():
    arguments, most = sys.argv[1:], 0
    if "--functions" in arguments:
        at = arguments.index("--functions")
        most = int(arguments[at + 1])
        del arguments[at : at + 2]
    program = arguments[0] if arguments else os.path.join(HERE, "..", "crates", "reo", "out", "reo")
    with tempfile.TemporaryDirectory() as room:
        document = os.path.join(room, "document")
        for title, lines in CASES:
            with open(document, "w") as text:
                text.write("\n".join(lines) + "\n")
            count = millions(program, document, room)
            line = f"{title}: {count:.2f} million"
            if len(arguments) > 1:
                other = millions(arguments[1], document, room)
                line += f", the other {other:.2f}, {count / other:.2f} times"
            print(line, flush=True)
            for function in functions(program, document, room, most) if most else []:
                print(f"    {function}")


if __name__ == "__main__":
    main()
