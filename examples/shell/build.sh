#!/bin/sh
# Builds the programs of this folder; ../guest/build.sh says how.
cd "$(dirname "$0")" && exec ../guest/build.sh shell count first
