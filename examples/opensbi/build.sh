#!/usr/bin/env bash
# Builds out/opensbi.elf: Debian's OpenSBI, program.c, a device tree of two harts and the entry. It needs, in Debian,
#
#     apt-get install opensbi device-tree-compiler python3 gcc-riscv64-unknown-elf binutils-riscv64-unknown-elf
#
# Where the simulator is built, or $DROMAJO names one, it is run and its console compared.
set -eu
program=$(realpath -m "${DROMAJO:-$(dirname "$0")/../../crates/dromajo/out/dromajo}")
cd "$(dirname "$0")"
work=$(mktemp -d)
trap 'rm -rf "$work"' EXIT
mkdir -p out

riscv64-unknown-elf-gcc -O2 -Wall -Wextra -march=rv64imac -mabi=lp64 -mcmodel=medany -ffreestanding -nostdlib \
    -Wl,--no-relax,--no-warn-rwx-segments,--section-start=.start=0x80200000,-Ttext=0x80200100 \
    -o "$work/program.elf" program.c
riscv64-unknown-elf-objcopy -O binary "$work/program.elf" "$work/program.bin"
./board.sh "$work/program.bin" 2 out/opensbi.elf

if [ -x "$program" ]; then
    "$program" run --config opensbi.json --turns 100000 < /dev/null > "$work/console"
    cmp "$work/console" opensbi.out
fi
