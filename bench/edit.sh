#!/usr/bin/env bash
# Removes 200 of 10,000 tiles in place (or as many as are asked for, among the last LAST), and counts the calls on both files:
# those of the steps of a command, and no more. The run without a removal, five times, tells what opening and closing take.
# usage: bench/edit.sh [TILES] [REMOVALS] [LAST]
set -eu
cd "$(dirname "$0")/.."
tiles=${1:-10000}
removals=${2:-200}
last=${3:-$tiles}
folder=$(mktemp -d)
trap 'rm -rf "$folder"' EXIT
tool=${CZI_TOOL:-crates/czi_tool/out/czi_tool}
[ -x "$tool" ] || (cd crates/czi_tool && rt run -- data/image.czi list >/dev/null)
python3 bench/make_tiles.py "$folder/tiles.czi" "$tiles"
python3 bench/count_calls.py script "$tiles" "$removals" "$last" >"$folder/script.txt"
before=$(stat -c %s "$folder/tiles.czi")
for turn in 1 2 3 4 5; do
    /usr/bin/time -f "no removal: %es (%Us user, %Ss system) %MKB" "$tool" "$folder/tiles.czi" edit </dev/null
done
for turn in 1 2 3 4 5; do
    cp "$folder/tiles.czi" "$folder/again.czi"
    rm -f "$folder/again.czi.jrn"
    cat "$folder/again.czi" >/dev/null
    /usr/bin/time -f "$removals removals: %es (%Us user, %Ss system) %MKB" "$tool" "$folder/again.czi" edit <"$folder/script.txt" >"$folder/said.txt"
done
tail -n 1 "$folder/said.txt"
if command -v strace >/dev/null; then
    strace -f -y -o "$folder/calls.txt" -e trace=pread64,pwrite64,fsync,ftruncate,statx "$tool" "$folder/tiles.czi" edit <"$folder/script.txt" >"$folder/traced.txt"
    cmp "$folder/said.txt" "$folder/traced.txt"
    python3 bench/count_calls.py count "$folder/calls.txt" "$removals"
else
    echo "strace is missing: the calls aren't counted"
fi
echo "length $before, then $(stat -c %s "$folder/tiles.czi")"
"$tool" "$folder/tiles.czi" list | head -n 1
