#!/usr/bin/env bash
# Judged records per second of user processor time, through `Judge::feed`, on the trace of examples/tables.c,
# fed in pieces of 64 KiB (or as many bytes as the second word says). The command `cosim` also reads a file or
# a pipe, which is not to be timed here, so this makes a copy of the repository with one more crate, whose main
# judges the trace as often as it has words: six times less once is what is timed, which takes the start-up away.
# Run it at the top of the checkout after `rt run` in crates/dromajo has built out/dromajo.
set -eu
program=$(realpath "${1:-crates/dromajo/out/dromajo}")
piece=${2:-65536}
work=$(mktemp -d)
trap 'rm -rf "$work"' EXIT
git clone --quiet . "$work/copy"
(cd examples && "$program" run --config tables.json --turns 1000000 --trace "$work/trace" < /dev/null > /dev/null)

# the memory that the segments of the ELF file make, its entry, the host window and the count of records
python3 - "$work" > "$work/numbers" <<'PY'
import struct, sys

work = sys.argv[1]
file = open("examples/tables.elf", "rb").read()
memory = bytearray(64 << 20)
entry, segments, sections = struct.unpack_from("<QQQ", file, 24)
size, count, section_size, section_count = struct.unpack_from("<4H", file, 54)
for n in range(count):
    kind, _, start, _, at, length = struct.unpack_from("<IIQQQQ", file, segments + n * size)
    if kind == 1:
        memory[at - 0x80000000:at - 0x80000000 + length] = file[start:start + length]
headers = [struct.unpack_from("<IIQQQQII", file, sections + n * section_size) for n in range(section_count)]
names = {}
for _, kind, _, _, start, length, link, _ in headers:
    for at in range(start, start + length, 24) if kind == 2 else ():
        name, value = struct.unpack_from("<I4xQ", file, at)
        names[file[headers[link][4] + name:].split(b"\0", 1)[0]] = value
open(f"{work}/memory", "wb").write(memory)
print(entry, names[b"tohost"], open(f"{work}/trace", "rb").read().count(b"\n"))
PY
read -r entry window records < "$work/numbers"

bench=$work/copy/crates/judge_bench
mkdir -p "$bench/src"
echo "judge_bench: cosim_check hart_step guest_ram" >> "$work/copy/crates.txt"
cat > "$bench/src/main.rt" <<RT
//! Judges a trace once for each word.
#![tactic(auto)]

ghost use Rattle.std.specs.Prelude.{IsTrue};
ghost use Rattle.cosim_check.specs.Standing.{HasWindow};

use cosim_check::{Judge, Verdict};
use guest_ram::{BASE, GuestRam};
use hart_step::{Core, NoMemory};
use std::alloc::Global;
use std::process::{Abort, ExitCode};
use std::{env, fs};

fn is_window(tohost: u64, ram: &GuestRam) -> bool
    ensures { IsTrue result → HasWindow tohost ram.now }
{
    tohost % 8 == 0 && ram.has(tohost, 8)
}

fn core_of(rt: &impl Abort, alloc: Global, memory: &[u8], entry: u64) -> Result<Core, NoMemory> {
    let len = memory.len() as u64;
    assert!(rt; 0 < len && len <= 256 << 20);
    let mut ram = GuestRam::new(alloc, len)?;
    if ram.has(BASE, len) {
        ram.part_mut(BASE, len).copy_from_slice(memory);
    }
    assert!(rt; entry % 2 == 0);
    Core::new(alloc, 1, ram, entry)
}

fn verdict_on(rt: &impl Abort, core: Core, tohost: u64, trace: &[u8]) -> Verdict {
    assert!(rt; is_window(tohost, core.ram()) && core.in_debug().is_none());
    let mut judge = Judge::new(core, tohost, u64::MAX);
    for part in trace.chunks($piece) {
        judge.feed(part);
    }
    judge.finish()
}

fn judged(rt: &impl Abort, alloc: Global, memory: &[u8], trace: &[u8]) -> Result<Verdict, NoMemory> {
    let core = core_of(rt, alloc, memory, $entry)?;
    Ok(verdict_on(rt, core, $window, trace))
}

fn main(rt: HostRuntime) -> ExitCode {
    let (Ok(memory), Ok(trace), Ok(words)) = (fs::read(&rt, "$work/memory"), fs::read(&rt, "$work/trace"), env::args(&rt)) else {
        return ExitCode::from(2);
    };
    let mut all = true;
    for _ in words.skip(1) {
        all = all && judged(&rt, rt.alloc(), &memory, &trace) == Ok(Verdict::Passing($records));
    }
    if all { ExitCode::SUCCESS } else { ExitCode::FAILURE }
}
RT
(cd "$bench" && rt run < /dev/null > "$work/log" 2>&1) || { cat "$work/log"; exit 1; }
user() { local TIMEFORMAT=%U; { time "$bench/out/judge_bench" "$@"; } 2>&1; }
once=$(user 1)
often=$(user {1..6})
python3 -c "
seconds = ($often - $once) / 5
print(f'$records records, {seconds:.3f} s of user processor time: {$records / seconds / 1e6:.1f} million records a second')"
