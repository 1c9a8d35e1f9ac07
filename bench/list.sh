#!/usr/bin/env bash
# Lists a file of many tiles with czi_tool and with list.c, compares what they print, and tells time and memory.
# usage: bench/list.sh [COUNT]     (1048576 by default; the file takes 432 bytes a tile)
set -eu
cd "$(dirname "$0")/.."
count=${1:-1048576}
folder=$(mktemp -d)
trap 'rm -rf "$folder"' EXIT
tool=${CZI_TOOL:-crates/czi_tool/out/czi_tool}
[ -x "$tool" ] || (cd crates/czi_tool && rt run -- data/image.czi list >/dev/null)
gcc -O2 -o "$folder/list" bench/list.c
python3 bench/make_tiles.py "$folder/tiles.czi" "$count"
cat "$folder/tiles.czi" >/dev/null
for turn in 1 2 3; do
    /usr/bin/time -f "C        %es (%Us user, %Ss system) %MKB" "$folder/list" "$folder/tiles.czi" >"$folder/c.txt"
    /usr/bin/time -f "czi_tool %es (%Us user, %Ss system) %MKB" "$tool" "$folder/tiles.czi" list >"$folder/tool.txt"
done
cmp "$folder/c.txt" "$folder/tool.txt"
echo "the same $(wc -c <"$folder/c.txt") bytes"
