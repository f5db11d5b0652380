#!/bin/sh
# Builds the program from its source, by Debian's package gcc-riscv64-linux-gnu, with atomic instructions, which an image
# of version 2 has. The built file lies beside it, so nobody needs to.
cd "$(dirname "$0")" || exit 1
riscv64-linux-gnu-gcc -march=rv64ima -mabi=lp64 -O1 -static -nostdlib -ffreestanding -fno-pie -no-pie \
    -fno-stack-protector -ffunction-sections -Wall -Wextra -I ../guest -Wl,--build-id=none,--gc-sections \
    -Wl,-z,max-page-size=4096,-z,separate-code -o draw draw.c ../guest/guest.c
