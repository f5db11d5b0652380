#!/bin/sh
# Builds the guest from its source, by Debian's package gcc-riscv64-linux-gnu. The built file lies beside it, so nobody
# needs to.
cd "$(dirname "$0")"
riscv64-linux-gnu-gcc -march=rv64ima -mabi=lp64 -O1 -static -nostdlib -ffreestanding -fno-pie -no-pie \
    -fno-stack-protector -Wall -Wextra -Wl,--build-id=none -Wl,-z,max-page-size=4096 -Wl,-z,separate-code \
    -o atomics atomics.c
