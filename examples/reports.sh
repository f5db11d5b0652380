#!/bin/sh
# Writes the report of each example anew, by the command beside it.
cd "$(dirname "$0")/.." || exit 1
for command in examples/*/command; do
    example=$(dirname "$command")
    eval "./dettrace run $example $(cat "$command")" >"$example/report"
done
