#!/bin/sh
# Builds the program from its sources, by Debian's packages gcc-riscv64-unknown-elf and picolibc-riscv64-unknown-elf.
# The built file lies beside them, so nobody needs to. elf64lriscv.x is the linker's own script for programs that a
# system loads; picolibc's is for machines without one. The three names make picolibc's headers show clocks and sleeps.
set -e
cd "$(dirname "$0")"
riscv64-unknown-elf-gcc -march=rv64im -mabi=lp64 -O1 --specs=picolibc.specs -nostartfiles -T ldscripts/elf64lriscv.x \
    -D_POSIX_TIMERS -D_POSIX_MONOTONIC_CLOCK -D_POSIX_CPUTIME -Wall -Wextra \
    -Wl,--build-id=none -Wl,-z,max-page-size=4096 -s -o words words.c linux.c
