#!/usr/bin/env bash
# Figures of the built program on OpenSBI with two harts and on Linux with one and with four: turns and steps, with the
# time and the processor time of the quickest of five runs; then the same of one run whose trace goes into a pipe that
# `wc` reads, with the trace's lines and bytes.
# Run it at the top of the checkout after `rt run` in crates/dromajo has built out/dromajo, and after
# examples/opensbi/build.sh and examples/linux/build.sh. `bench/boot.sh PROGRAM --modes` also counts the steps of each
# mode (and I, interrupts, and H, words that the host took) with awk, which takes its time.
set -eu
program=$(realpath "${1:-crates/dromajo/out/dromajo}")
modes=${2:-}
work=$(mktemp -d)
trap 'rm -rf "$work"' EXIT
mkfifo "$work/pipe"
mkdir "$work/out"
cp examples/opensbi/out/opensbi.elf examples/linux/out/linux.elf "$work/out"
cp examples/opensbi/opensbi.json examples/linux/linux.json "$work"
examples/opensbi/board.sh examples/linux/out/Image 1 "$work/out/one.elf" > /dev/null
sed 's/"harts": 4/"harts": 1/; s/linux.elf/one.elf/' examples/linux/linux.json > "$work/one.json"
cd "$work"
python3 - "$program" "$modes" <<'PY'
import json, os, re, subprocess, sys, time

program, modes = sys.argv[1:]
COUNT = '{ n[$1 == "C" || $1 == "X" ? $3 : $1]++ } END { for (k in n) print k, n[k] }'


def run(name, *more):
    """Seconds, those of the processor, and turns."""
    began = time.monotonic()
    child = subprocess.Popen([program, "run", "--config", f"{name}.json", "--turns", "1000000", *more],
                             stdin=subprocess.DEVNULL, stdout=subprocess.DEVNULL, stderr=subprocess.PIPE, text=True)
    report = child.stderr.read()
    usage = os.wait4(child.pid, 0)[2]
    seconds = time.monotonic() - began
    return seconds, usage.ru_utime + usage.ru_stime, int(re.fullmatch(r"done turns=(\d+) taken=0\n", report)[1])


def traced(name, reader):
    child = subprocess.Popen(f"{reader} < pipe", shell=True, stdout=subprocess.PIPE, text=True)
    seconds, busy, _ = run(name, "--trace", "pipe")
    return seconds, busy, child.communicate()[0]


for name, what in (("opensbi", "OpenSBI, two harts"), ("one", "Linux, one hart"), ("linux", "Linux, four harts")):
    seconds, busy, turns = min(run(name) for _ in range(5))
    with open(f"{name}.json") as it:
        board = json.load(it)
    steps = turns * board["slice"] * board["harts"]
    print(f"{what}: {turns} turns, {steps} steps in {seconds:.2f} s ({busy:.2f} s of the processor), "
          f"{steps / seconds / 1e6:.1f} million a second")
    whole, of_it, told = traced(name, "wc -l -c")
    lines, size = map(int, told.split())
    print(f"  with a trace: {lines} lines, {size} bytes in {whole:.2f} s ({of_it:.2f} s of the processor), "
          f"{lines / whole / 1e6:.1f} million lines and {size / whole / 1e6:.0f} MB a second, "
          f"{(whole - seconds) / lines * 1e6:.2f} us a line more")
    if modes == "--modes":
        print("  modes:", ", ".join(sorted(traced(name, f"awk '{COUNT}'")[2].splitlines())))
PY
