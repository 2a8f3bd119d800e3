#!/usr/bin/env python3
"""Runs the gate and says what it took, in processor minutes: each crate's own proof and build, and its must-fail edits.

    bench/gate_times.py [rt ci's words]

It looks once a second at the prover's processes. One that works in a folder of the repository proves or builds a crate;
one that works in a folder for edits tries those. What a process took after the last look isn't seen, so that a sum is up
to a second too low for each process. For a run from nothing use a machine that has kept no proofs.
"""
import os
import subprocess
import sys
import time

TICKS = os.sysconf("SC_CLK_TCK")


def processes():
    for name in os.listdir("/proc"):
        if name.isdigit():
            try:
                with open(f"/proc/{name}/cmdline", "rb") as file:
                    words = file.read().split(b"\0")
                with open(f"/proc/{name}/stat") as file:
                    fields = file.read().rsplit(")", 1)[1].split()
                folder = os.readlink(f"/proc/{name}/cwd")
            except OSError:
                continue
            if words[0].endswith(b"/rattle") and b"--crate-name" in words:
                crate = words[words.index(b"--crate-name") + 1].decode()
                # the process's own time, and its start, since a number may be given again
                yield (name, fields[19]), crate, folder, (int(fields[11]) + int(fields[12])) / TICKS


def kind_of(folder, top):
    if folder.startswith(top):
        return "proof"
    return "edits" if "rt-edit-" in folder else None


def main():
    top = os.getcwd() + "/"
    seen = {}
    began = time.time()
    gate = subprocess.Popen(["rt", "ci", *sys.argv[1:]])
    while gate.poll() is None:
        for process, crate, folder, seconds in processes():
            kind = kind_of(folder, top)
            if kind:
                seen[process] = (crate, kind, seconds)
        time.sleep(1)
    sums = {}
    for crate, kind, seconds in seen.values():
        row = sums.setdefault(crate, {"proof": 0.0, "edits": 0.0})
        row[kind] += seconds
    print("| Crate | Proof | Edits |\n|---|---|---|")
    for crate, row in sorted(sums.items()):
        print(f"| `{crate}` | {row['proof'] / 60:.1f} | {row['edits'] / 60:.1f} |")
    proof = sum(row["proof"] for row in sums.values()) / 60
    edits = sum(row["edits"] for row in sums.values()) / 60
    print(f"| together | {proof:.1f} | {edits:.1f} |")
    print(f"\n{(time.time() - began) / 60:.1f} minutes by the clock")
    return gate.returncode


sys.exit(main())
