#!/usr/bin/env bash
# build.sh [WORK]: builds out/linux.elf: a kernel of Debian's sources with init.c as its one program, over the firmware
# of examples/opensbi and a device tree of four harts. It needs, in Debian 12,
#
#     apt-get install opensbi device-tree-compiler python3 gcc-riscv64-unknown-elf binutils-riscv64-unknown-elf \
#         linux-source-6.1 gcc-riscv64-linux-gnu make gcc libc6-dev flex bison bc xz-utils
#
# The sources (1.3 GB) and what is compiled of them stay in the folder WORK, by default ~/.cache/dromajo-linux.
# Where the simulator is built, or $DROMAJO names one, it is run and its console compared.
set -eu
program=$(realpath -m "${DROMAJO:-$(dirname "$0")/../../crates/dromajo/out/dromajo}")
work=${1:-${XDG_CACHE_HOME:-$HOME/.cache}/dromajo-linux}
mkdir -p "$work"
work=$(cd "$work" && pwd)
cd "$(dirname "$0")"
here=$PWD
mkdir -p out

# The sources, anew where the package is newer.
packed=/usr/src/linux-source-6.1.tar.xz
if [ ! "$work/unpacked" -nt "$packed" ]; then
    rm -rf "$work/linux-source-6.1" "$work/kernel"
    tar -x -f "$packed" -C "$work"
    touch "$work/unpacked"
fi

# Nothing in the kernel tells when and by whom it was built, so that its bytes depend on the packages alone.
export ARCH=riscv CROSS_COMPILE=riscv64-linux-gnu- KBUILD_BUILD_TIMESTAMP='Mon Jan 1 00:00:00 UTC 2024'
export KBUILD_BUILD_VERSION=1 KBUILD_BUILD_USER=dromajo KBUILD_BUILD_HOST=example

# The program. Nothing sets its global pointer, so the linker may make no address relative to it. Its time goes into the
# initramfs, which is made anew.
mkdir -p "$work/kernel"
riscv64-linux-gnu-gcc -O2 -Wall -Wextra -march=rv64imac -mabi=lp64 -ffreestanding -fno-stack-protector -fno-pie -no-pie \
    -nostdlib -static -Wl,--no-relax,--build-id=none -o "$work/kernel/init.elf" init.c
touch -d "$KBUILD_BUILD_TIMESTAMP" "$work/kernel/init.elf"
cp initramfs.list "$work/kernel"
rm -f "$work/kernel/usr/initramfs_data.cpio"

# The kernel.
cd "$work/linux-source-6.1"
make -s O="$work/kernel" tinyconfig
scripts/kconfig/merge_config.sh -m -O "$work/kernel" "$work/kernel/.config" "$here/kernel.config" > /dev/null
make -s O="$work/kernel" olddefconfig
grep -E '^(# )?CONFIG_' "$here/kernel.config" | while read -r line; do
    name=${line#\# }
    name=${name%%[= ]*}
    case $line in
        *' is not set') ! grep -q "^$name=" "$work/kernel/.config" ;;
        *) grep -q -x -F "$line" "$work/kernel/.config" ;;
    esac || { echo "build.sh: the kernel's configuration does not take: $line" >&2; exit 1; }
done
make -s -j"$(nproc)" O="$work/kernel" Image
cd "$here"
cp "$work/kernel/arch/riscv/boot/Image" out/Image
../opensbi/board.sh out/Image 4 out/linux.elf

if [ -x "$program" ]; then
    "$program" run --config linux.json --turns 1000000 < /dev/null > out/console
    ./told.sh < out/console | cmp - linux.out
fi
