#!/usr/bin/env bash
# Figures of the built program on the C program examples/tables.elf: time and steps a second of the whole run,
# then of a part of it without and with a trace, the bytes of that trace a second and what a line of it costs,
# and the resident memory of each.
# Run it at the top of the checkout after `rt run` in crates/dromajo has built out/dromajo.
set -eu
program=$(realpath "${1:-crates/dromajo/out/dromajo}")
turns=${2:-50000}
cd examples
work=$(mktemp -d)
trap 'rm -rf "$work"' EXIT
python3 - "$program" "$turns" "$work/trace" <<'PY'
import os, re, subprocess, sys, time

program, part, trace = sys.argv[1], sys.argv[2], sys.argv[3]
SLICE = 64  # of tables.json


def figures(what, turns, *more):
    began = time.monotonic()
    child = subprocess.Popen([program, "run", "--config", "tables.json", "--turns", turns, *more],
                             stdin=subprocess.DEVNULL, stdout=subprocess.DEVNULL, stderr=subprocess.PIPE, text=True)
    report = child.stderr.read()
    usage = os.wait4(child.pid, 0)[2]
    seconds = time.monotonic() - began
    steps = SLICE * int(re.fullmatch(r"done turns=(\d+) taken=0\n", report)[1])
    print(f"{what}: {steps} steps in {seconds:.2f} s, {steps / seconds / 1e6:.1f} million a second, "
          f"{usage.ru_maxrss / 1024:.1f} MB resident")
    return steps, seconds


figures("whole run", "1000000")
steps, without = figures("part", part)
_, traced = figures("part with a trace", part, "--trace", trace)
size = os.path.getsize(trace)
print(f"trace: {size} bytes, {size / traced / 1e6:.0f} MB a second, {(traced - without) / steps * 1e6:.2f} us a line more")
PY
