#!/usr/bin/env bash
# Figures of saving and loading the machine of examples/tables.json, whose memory is 64 MiB: a `save` and a `load` of 0
# turns beside a `cp` of the three files and a `run` of 0 turns, which only makes the machine. They take turns; of each
# the least, the median and the greatest of the rounds are printed, by the clock and in processor time.
# Run it at the top of the checkout after `rt run` in crates/dromajo has built out/dromajo. Its words are the program,
# the number of rounds, and the folder in which a folder for the files is made.
set -eu
program=$(realpath "${1:-crates/dromajo/out/dromajo}")
rounds=${2:-15}
work=$(mktemp -d -p "${3:-${TMPDIR:-/tmp}}")
trap 'rm -rf "$work"' EXIT
mkdir "$work/copy"
cd examples
python3 - "$program" "$rounds" "$work" <<'PY'
import os, subprocess, sys, time

program, rounds, work = sys.argv[1], int(sys.argv[2]), sys.argv[3]
CALLS = {
    "run of 0 turns": [program, "run", "--config", "tables.json", "--turns", "0"],
    "save": [program, "save", "--config", "tables.json", "--turns", "0", "--name", f"{work}/saved"],
    "load": [program, "load", "--name", f"{work}/saved", "--turns", "0"],
    "cp": ["cp", *(f"{work}/saved.{it}" for it in ("json", "mainram", "bootram")), f"{work}/copy"],
}


def figures(call):
    """Seconds by the clock, those of the processor in all, and those of them in user mode."""
    began = time.monotonic()
    child = subprocess.Popen(call, stdin=subprocess.DEVNULL, stdout=subprocess.DEVNULL, stderr=subprocess.DEVNULL)
    _, status, usage = os.wait4(child.pid, 0)
    if status:
        sys.exit(f"this failed: {' '.join(call)}")
    return time.monotonic() - began, usage.ru_utime + usage.ru_stime, usage.ru_utime


found = {what: [] for what in CALLS}
for _ in range(rounds):
    for what, call in CALLS.items():
        found[what].append(figures(call))
for what, rows in found.items():
    parts = []
    for name, column in zip(("clock", "processor", "user mode"), zip(*rows)):
        column = sorted(column)
        parts.append(f"{name} {column[0]:.3f}, {column[len(column) // 2]:.3f}, {column[-1]:.3f} s")
    print(f"{what}: {'; '.join(parts)}")
PY
