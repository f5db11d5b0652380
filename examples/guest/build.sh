#!/bin/sh
# Builds programs of an example from their sources, in its folder: ../guest/build.sh PROGRAM.. It takes Debian's package
# gcc-riscv64-linux-gnu. The built files lie beside their sources, so nobody needs to.
set -e
guest=$(dirname "$0")
for program in "$@"; do
    riscv64-linux-gnu-gcc -march=rv64im -mabi=lp64 -O1 -static -nostdlib -ffreestanding -fno-pie -no-pie \
        -fno-stack-protector -ffunction-sections -Wall -Wextra -I "$guest" -Wl,--build-id=none,--gc-sections \
        -Wl,-z,max-page-size=4096,-z,separate-code -o "$program" "$program.c" "$guest/guest.c"
done
