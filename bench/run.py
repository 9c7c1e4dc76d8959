#!/usr/bin/env python3
"""Runs the built program on documents at its limits, and prints seconds, steps a second and peak memory.

Usage: bench/run.py [PROGRAM]    (default: crates/reo/out/reo, which ./reo --prove builds)
"""
import os
import subprocess
import sys
import tempfile
import time

HERE = os.path.dirname(os.path.abspath(__file__))
MOST_BYTES = 1_048_576


def chain(channels, operations, pad):
    """A chain of FIFO1 channels: one component puts at its head, one gets at its end. Long names fill the bytes up."""
    name = lambda k: f"N{k}".ljust(pad, "x")
    items = operations // 2
    lines = [f"in {name(0)}"]
    lines += [f"fifo {name(k)} {name(k + 1)}" for k in range(channels)]
    lines += [f"out {name(channels)}", "component source"]
    lines += [f"put {name(0)} {k}" for k in range(items)]
    lines += ["component sink"]
    lines += [f"get {name(channels)}"] * items
    return "\n".join(lines) + "\n"


def wide(channels, ports):
    """So many channels side by side as there are pairs of ports; the other channels follow them, in rings."""
    pairs = ports // 2
    lines = [f"in A{k}" for k in range(pairs)] + [f"out B{k}" for k in range(pairs)]
    lines += [f"fifo A{k} B{k}" for k in range(pairs)]
    rest = channels - pairs
    lines += [f"fifo R{k} R{(k + 1) % rest}" + (" full 1" if k == 0 else "") for k in range(rest)]
    for k in range(pairs):
        lines += [f"component P{k}"] + [f"put A{k} {j}" for j in range(390)]
        lines += [f"component C{k}"] + [f"get B{k}"] * 390
    return "\n".join(lines) + "\n"


def measure(program, name, text):
    data = text.encode()
    with tempfile.TemporaryFile() as source, tempfile.NamedTemporaryFile() as out:
        source.write(data)
        source.seek(0)
        begun = time.monotonic()
        child = subprocess.Popen([program, "run", "--plain"], stdin=source, stdout=out)
        _, status, usage = os.wait4(child.pid, 0)
        seconds = time.monotonic() - begun
        out.seek(0)
        steps = sum(1 for line in out if line.startswith(b"step "))
    code = os.waitstatus_to_exitcode(status)
    print(
        f"{name}: {len(data)} bytes, status {code}, {steps} steps, {seconds:.2f} s, "
        f"{steps / seconds:,.0f} steps/s, {usage.ru_maxrss / 1024:.0f} MB at most"
    )


def main():
    program = sys.argv[1] if len(sys.argv) > 1 else os.path.join(HERE, "..", "crates", "reo", "out", "reo")
    measure(program, "one buffer, 100,000 operations", chain(1, 100_000, 2))
    measure(program, "a chain of 511 buffers", chain(511, 2_000, 8))
    measure(program, "512 channels and 128 ports", wide(512, 128))
    many = chain(1, 100_000, 2)
    long_names = chain(8, 44_000, 16)
    measure(program, "nearly 1 MiB", long_names if len(long_names) <= MOST_BYTES else many)


if __name__ == "__main__":
    main()
