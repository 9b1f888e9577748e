#!/usr/bin/env bash
# board.sh PAYLOAD HARTS OUT: makes the ELF file OUT of Debian's OpenSBI, the flat image PAYLOAD that it goes on with
# in supervisor mode, and a device tree of HARTS harts.
#
# The host window is the word `tohost` of the firmware's driver, which has no symbol in the package. Its section .htif
# has two words, `tohost` and `fromhost`; the driver stores what is not zero in `tohost` alone, so it is the one that an
# instruction sd of another register than zero names. In the package 1.1-2 that is 0x8001a3e8. Where another version
# does not show it so, give its address as TOHOST=0x...
set -eu
payload=$1 harts=$2 out=$3
here=$(cd "$(dirname "$0")" && pwd)
generic=/usr/lib/riscv64-linux-gnu/opensbi/generic
work=$(mktemp -d)
trap 'rm -rf "$work"' EXIT

if [ -z "${TOHOST:-}" ]; then
    riscv64-unknown-elf-objdump -d "$generic/fw_jump.elf" > "$work/firmware.s"
    riscv64-unknown-elf-readelf -SW "$generic/fw_jump.elf" > "$work/sections"
    TOHOST=$(python3 - "$work/firmware.s" "$work/sections" <<'PY'
import re, sys

code, sections = (open(it).read() for it in sys.argv[1:])
found = re.search(r"\.htif\s+PROGBITS\s+([0-9a-f]+)\s+[0-9a-f]+\s+000010 ", sections)
words = [int(found[1], 16), int(found[1], 16) + 8] if found else []
stores = {int(it, 16) for it in re.findall(r"\tsd\t(?!zero)\S+ # ([0-9a-f]+)", code)}
held = [it for it in words if it in stores]
if len(held) != 1:
    sys.exit("board.sh: the firmware's word tohost is not found. Give its address as TOHOST=0x..")
print(hex(held[0]))
PY
    )
fi
echo "host window at $TOHOST"

cp "$payload" "$work/payload.bin"
riscv64-unknown-elf-cpp -nostdinc -undef -P -x assembler-with-cpp -D "HARTS=$harts" "$here/board.dts" "$work/board.dts"
dtc -I dts -O dtb -o "$work/board.dtb" "$work/board.dts"
riscv64-unknown-elf-as -march=rv64imac_zicsr -mabi=lp64 -I "$work" -I "$generic" -o "$work/entry.o" "$here/entry.s"
riscv64-unknown-elf-ld -n --no-relax --no-warn-rwx-segments --defsym="tohost=$TOHOST" -T "$here/board.ld" \
    -o "$out" "$work/entry.o"
