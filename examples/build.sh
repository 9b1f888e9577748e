#!/usr/bin/env bash
# Builds the examples anew, each beside its source. It needs GCC, binutils and picolibc for RISC-V without a
# system, in Debian
#
#     apt-get install gcc-riscv64-unknown-elf picolibc-riscv64-unknown-elf
set -eu
cd "$(dirname "$0")"
work=$(mktemp -d)
trap 'rm -rf "$work"' EXIT
gcc=(riscv64-unknown-elf-gcc -O2 -mabi=lp64 -mcmodel=medany)

# Flat images. The programs set no global pointer, so the linker may make no address relative to it.
for name in hello traps pages timer; do
    riscv64-unknown-elf-as -march=rv64imac_zicsr -mabi=lp64 -o "$work/$name.o" "$name.s"
    riscv64-unknown-elf-ld --no-relax --no-warn-rwx-segments -Ttext=0x80000000 -o "$work/$name.elf" "$work/$name.o"
    riscv64-unknown-elf-objcopy -O binary "$work/$name.elf" "$name.bin"
done

# C without a library.
"${gcc[@]}" -march=rv64imac_zicsr -ffreestanding -nostdlib \
    -Wl,-n,--no-warn-rwx-segments,-Ttext=0x80000000 -o harts.elf harts.c

# C with picolibc, whose printf is taken without floating point.
"${gcc[@]}" -Wall -Wextra -march=rv64imac --specs=picolibc.specs -DPICOLIBC_INTEGER_PRINTF_SCANF -nostartfiles \
    -Wl,-n,--no-warn-rwx-segments,--strip-debug -T tables.ld -o tables.elf tables.c window.c

# The tests hold the flat images as arrays.
python3 ../tools/example_images.py

# Where the simulator is built, the C programs are run.
program=../crates/dromajo/out/dromajo
if [ -x "$program" ]; then
    "$program" run --config harts.json --turns 1000 < /dev/null | cmp - harts.out
    "$program" run --config tables.json --turns 1000000 < /dev/null | cmp - tables.out
fi
