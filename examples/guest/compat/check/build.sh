#!/bin/sh
# Builds the guest with both C libraries. The built files lie in their images, so nobody needs to.
set -e
cd "$(dirname "$0")"
for library in musl picolibc; do
    ../../cc --$library -O2 -Wall -Wextra -s -o $library/check check.c
done
