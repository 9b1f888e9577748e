#!/usr/bin/env bash
# Runs out/Image, which build.sh made, on four harts of QEMU's board `virt` with the same firmware, and compares what the
# program prints there with its lines in linux.out. It needs, in Debian, apt-get install qemu-system-misc
set -eu
cd "$(dirname "$0")"
timeout 300 qemu-system-riscv64 -machine virt -cpu rv64 -smp 4 -m 64M -nographic -no-reboot \
    -bios /usr/lib/riscv64-linux-gnu/opensbi/generic/fw_jump.elf -kernel out/Image < /dev/null > out/console.qemu
tr -d '\r' < out/console.qemu | grep '^init: ' > out/lines.qemu
cat out/lines.qemu
grep '^init: ' linux.out | cmp - out/lines.qemu
