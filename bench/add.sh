#!/usr/bin/env bash
# Adds a tile of BYTES pixel bytes (64 MiB if not given) to a file of ten tiles, five times, and beside each run makes its reads,
# writes and syncs once more by a C program (replay.c), from what strace told; and the same for metadata of 16 MiB. Then adds a
# small tile to a file of TILES tiles (1,000,000 if not given), another one, and replaces that; and counts the bytes that each of
# these writes to image and journal.
# usage: bench/add.sh [BYTES] [TILES]
set -eu
cd "$(dirname "$0")/.."
bytes=${1:-67108864}
tiles=${2:-1000000}
folder=$(mktemp -d)
trap 'rm -rf "$folder"' EXIT
tool=${CZI_TOOL:-crates/czi_tool/out/czi_tool}
[ -x "$tool" ] || (cd crates/czi_tool && rt run -- data/image.czi list >/dev/null)
gcc -O2 -Wall -o "$folder/replay" bench/replay.c

fresh() { # a copy of a file, without a journal, in the cache
    cp "$folder/$1.czi" "$folder/again.czi"
    rm -f "$folder/again.czi.jrn"
    cat "$folder/again.czi" >/dev/null
}

timed() { # runs the rest of the words over the script, and tells milliseconds by the clock, and seconds of work and peak memory
    local who=$1 start end
    shift
    start=${EPOCHREALTIME/./}
    /usr/bin/time -o "$folder/used" -f "%Us user, %Ss system, %MKB" "$@" <"$folder/large" >/dev/null
    end=${EPOCHREALTIME/./}
    echo "$who: $(((end - start) / 1000)) ms, $(cat "$folder/used")"
}

compare() { # the script in large, five times, and each time its calls again by replay.c
    fresh few
    strace -f -y -s 0 -o "$folder/calls.txt" -e trace=read,pread64,pwrite64,fsync,ftruncate "$tool" "$folder/again.czi" edit <"$folder/large" >/dev/null
    python3 bench/count_calls.py plan "$folder/calls.txt" >"$folder/plan.txt"
    for turn in 1 2 3 4 5; do
        fresh few
        timed "$1 by czi_tool" "$tool" "$folder/again.czi" edit
        fresh few
        timed "$1 by replay.c" "$folder/replay" "$folder/plan.txt" "$folder/again.czi" "$folder/again.czi.jrn"
    done
}

python3 bench/make_tiles.py "$folder/few.czi" 10
{ echo "add pixel=0 dims=C0,S0,X40000:8192,Y0:8192 meta=0 data=$bytes att=0"; head -c "$bytes" /dev/urandom; echo; } >"$folder/large"
compare add
{ echo "meta xml=16777216 att=0"; head -c 16777216 /dev/urandom; echo; } >"$folder/large"
compare meta

python3 bench/make_tiles.py "$folder/many.czi" "$tiles"
for line in "add pixel=0 dims=C9,X0:4,Y0:2" "add pixel=0 dims=C10,X0:4,Y0:2" "replace pixel=1 dims=C10,X0:4,Y0:2"; do
    printf '%s meta=0 data=8 att=0\nABCDEFGH\n' "$line" >"$folder/small"
    strace -f -y -s 0 -o "$folder/calls.txt" -e trace=pread64,pwrite64,fsync,ftruncate "$tool" "$folder/many.czi" edit <"$folder/small" >/dev/null
    echo "${line%% *}:" "$(python3 bench/count_calls.py count "$folder/calls.txt" 1 | tail -n 1)"
done
