#!/usr/bin/env bash
# Paints regions with czi_tool, and beside it by region.c, a C program that makes the same reads and writes; five times each, and tells
# the medians in milliseconds: 8,192 by 8,192 pixels of Gray16 over 16 tiles (the limit is 1.25 times what C takes), a script of 131,072
# regions of one pixel over as many tiles (the limit is 10 seconds, opening included), and 16,384 rows over 1,048,576 tiles of 16 by 16.
# usage: bench/region.sh
set -eu
cd "$(dirname "$0")/.."
folder=$(mktemp -d)
trap 'rm -rf "$folder"' EXIT
tool=${CZI_TOOL:-crates/czi_tool/out/czi_tool}
[ -x "$tool" ] || (cd crates/czi_tool && rt run -- data/image.czi list >/dev/null)
gcc -O2 -Wall -o "$folder/region" bench/region.c

spent() { # the milliseconds that the rest of the words take; what they print goes to a file
    local to=$1 start end
    shift
    start=${EPOCHREALTIME/./}
    "$@" >"$folder/$to"
    end=${EPOCHREALTIME/./}
    echo $(((end - start) / 1000))
}

median() {
    sort -n | sed -n 3p
}

compare() { # a region of BYTES, WIDTH and HEIGHT, painted by both
    local name=$1 bytes=$2 width=$3 height=$4 turn
    cat "$folder/$name.czi" >/dev/null
    rm -f "$folder/by_c" "$folder/by_tool"
    for turn in 1 2 3 4 5; do
        spent c.pgm "$folder/region" "$folder/$name.czi" "$bytes" "$width" "$height" >>"$folder/by_c"
        spent tool.pgm "$tool" "$folder/$name.czi" region "pixel=$((bytes - 1))" layer=1 x=0 y=0 "w=$width" "h=$height" >>"$folder/by_tool"
    done
    cmp "$folder/c.pgm" "$folder/tool.pgm"
    echo "$name: C $(median <"$folder/by_c") ms, czi_tool $(median <"$folder/by_tool") ms"
}

python3 bench/make_mosaic.py "$folder/large.czi" 4 4 2048 2048 2048 2
compare large 2 8192 8192

python3 bench/make_mosaic.py "$folder/single.czi" 131072 1 4 2 4096 1
for ((i = 0; i < 131072; i++)); do echo "region pixel=0 layer=1 x=$((4096 * i)) y=0 w=1 h=1"; done >"$folder/script"
cat "$folder/single.czi" >/dev/null
for turn in 1 2 3 4 5; do
    spent said "$tool" "$folder/single.czi" edit <"$folder/script"
done | median >"$folder/regions"
echo "single: 131072 regions $(cat "$folder/regions") ms, $(wc -c <"$folder/said") bytes said"

python3 bench/make_mosaic.py "$folder/small.czi" 1024 1024 16 16 16 1
compare small 1 16384 16384
