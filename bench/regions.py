#!/usr/bin/env python3
"""Runs the built program on circuits at their limits, and prints seconds and peak memory of each run, and steps a second.

Usage: bench/regions.py [PROGRAM]    (default: crates/reo/out/reo, which ./reo --prove builds)
"""
import os
import subprocess
import sys
import tempfile
import time

HERE = os.path.dirname(os.path.abspath(__file__))


def fan(width, depth=0):
    """LossySyncs from one put port, each behind it a line of Syncs to a get port."""
    lines = ["in A"]
    for k in range(width):
        lines += [f"lossy A B{k}_0"]
        lines += [f"sync B{k}_{d} B{k}_{d + 1}" for d in range(depth)]
        lines += [f"out B{k}_{depth}"]
    return lines


def limits():
    """512 channels, 128 ports and 1,024 nodes: the checks, the cut and 512 small tables."""
    lines = [f"in P{k}" for k in range(64)] + [f"out Q{k}" for k in range(64)]
    for k in range(64):
        lines += [f"sync P{k} M{k}", f"fifo M{k} Q{k}"]
    return lines + [f"sync X{k} Y{k}" for k in range(384)]


def merger(width):
    """LossySyncs from put ports into one node."""
    return [line for k in range(width) for line in (f"in A{k}", f"lossy A{k} M")] + ["out M"]


def router(items):
    """Choices on the exclusive router, in turn for the one get port and the other."""
    circuit = ["in A", "lossy A F", "lossy A G", "sync F B", "sync F M", "sync G C", "sync G M", "drain A M", "out B", "out C"]
    script = ["component P"] + ["put A 5"] * items + ["component Q"] + ["get B"] * (items // 2)
    return circuit + script + ["component R"] + ["get C"] * (items // 2)


def syncs(length, items):
    """A line of Syncs, through which data go at once."""
    lines = ["in N0"] + [f"sync N{k} N{k + 1}" for k in range(length)] + [f"out N{length}", "component P"]
    lines += [f"put N0 {k}" for k in range(items)]
    return lines + ["component Q"] + [f"get N{length}"] * items


def puts_into(circuit, width, items):
    """A circuit, and components that put at its ports A0, A1, .. in turn, and one that gets at M."""
    scripts = [line for k in range(width) for line in [f"component P{k}"] + [f"put A{k} {k}"] * (items // width)]
    return circuit + scripts + ["component Q"] + ["get M"] * (items // width * width)


def puts_out(circuit, items):
    """A circuit, a component that puts at its port A, and none that gets: the last of all firings is chosen."""
    return circuit + ["component P"] + [f"put A {k}" for k in range(items)]


def filters(width, items):
    """Filters from one put port to get ports: the datum decides which of all the firings is chosen."""
    lines = ["in A"] + [line for k in range(width) for line in (f"filter A B{k} x mod {k + 2} = 0", f"out B{k}")]
    lines += ["component P"] + [f"put A {7 * k + 1}" for k in range(items)]
    return lines + [line for k in range(width) for line in [f"component Q{k}"] + [f"get B{k}"] * items]


CASES = [
    ("all limits", "plan", limits()),
    ("fan of 4,096 firings", "plan", fan(12)),
    ("more than 65,536 vertices", "plan", fan(9, 40)),
    ("merger of twelve", "plan", merger(12)),
    ("20,000 choices of a router", "run --plain", router(20_000)),
    ("12,000 choices of a merger of twelve", "run --plain", puts_into(merger(12), 12, 12_000)),
    ("10,000 choices among 4,096 firings", "run --plain", puts_out(fan(12), 10_000)),
    ("5,000 choices by data among 4,096 firings", "run --plain", filters(12, 5_000)),
    ("2,000 data through 64 Syncs", "run --plain", syncs(64, 2_000)),
]


def main():
    program = sys.argv[1] if len(sys.argv) > 1 else os.path.join(HERE, "..", "crates", "reo", "out", "reo")
    for title, words, lines in CASES:
        with tempfile.TemporaryFile() as text:
            text.write(("\n".join(lines) + "\n").encode())
            text.seek(0)
            timed = ["/usr/bin/time", "-f", "%e s, %M KiB"]
            begun = time.monotonic()
            run = subprocess.run(timed + [program] + words.split(), stdin=text, stdout=subprocess.PIPE, stderr=subprocess.PIPE)
            seconds = time.monotonic() - begun
        told = [line for line in run.stderr.decode().splitlines() if not line.startswith("Command exited")]
        steps = sum(line.startswith(b"step ") for line in run.stdout.splitlines())
        if steps:
            told.append(f"{steps / seconds:,.0f} steps/s")
        print(f"{title}: {'; '.join(told)}")


if __name__ == "__main__":
    main()
