#!/bin/sh
# Makes the pictures of this folder anew, by chromium, pngquant and optipng: pages of a run of the pipeline, and of the
# race under two seeds. A program that stands elsewhere is named by the first word.
set -e
program=$(realpath "${1:-dettrace}")
cd "$(dirname "$0")/../.."
top=$PWD
work=$(mktemp -d)
trap 'rm -rf "$work"' EXIT

# The names of the reports stand on the pages.
cd "$work"
eval "$program run $top/examples/pipes $(cat "$top/examples/pipes/command")" >pipes
"$program" run "$top/examples/race" --seed 0 -- /race >seed-0
"$program" run "$top/examples/race" --seed 1 -- /race >seed-1
"$top/tools/report" page pipes -o pipes.html
"$top/tools/report" page seed-0 seed-1 -o race.html

shoot() {
    chromium --headless --no-sandbox --disable-gpu --hide-scrollbars --user-data-dir="$work/profile" \
        --window-size="$2" --screenshot="$work/$1.png" "file://$work/$1.html" >/dev/null 2>&1
    pngquant --force --speed 1 --quality 80-100 -o "$1.png" "$1.png"
    optipng -quiet -o5 "$1.png"
    cp "$1.png" "$top/docs/pictures/$1.png"
}
shoot pipes 1000,1545
shoot race 1200,1370
