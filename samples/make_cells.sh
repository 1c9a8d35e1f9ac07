#!/usr/bin/env bash
# Makes samples/cells.czi anew with czi_tool, from the script that cells_script.py prints, and from it the picture docs/cells.png: the
# nuclei in blue and the bodies in green.
# usage: samples/make_cells.sh
set -eu
cd "$(dirname "$0")/.."
tool=${CZI_TOOL:-crates/czi_tool/out/czi_tool}
folder=$(mktemp -d)
trap 'rm -rf "$folder"' EXIT
"$tool" "$folder/cells.czi" create guid=00112233-4455-6677-8899-aabbccddeeff
python3 samples/cells_script.py | "$tool" "$folder/cells.czi" edit
for channel in C0 C1; do
    "$tool" "$folder/cells.czi" region pixel=0 layer=1 x=0 y=0 w=576 h=216 plane=$channel >"$folder/$channel.pgm"
done
python3 samples/png.py docs/cells.png "$folder/C0.pgm" "$folder/C1.pgm"
cp "$folder/cells.czi" samples/cells.czi
