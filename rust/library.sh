#!/bin/sh
# Makes libtiling_c.a where it is missing or older than the code: the proved
# library that rust/tiling links. TILING_LIB names another folder that holds it.
set -eu
cd "$(dirname "$0")/.."
folder="${TILING_LIB:-target/staticlib}"
archive="$folder/libtiling_c.a"
if [ -f "$archive" ]; then
    newer="$(find crates crates.txt -newer "$archive" -not -path '*/out/*' \( -name '*.rt' -o -name '*.antt' -o -name crates.txt \) | head -n 1)"
    if [ -n "${TILING_LIB:-}" ] || [ -z "$newer" ]; then
        exit 0
    fi
fi
if [ -n "${TILING_LIB:-}" ]; then
    echo "libtiling_c.a is not in $folder, where TILING_LIB says" >&2
    exit 1
fi
echo "libtiling_c.a is made first, by rt lib in crates/tiling_c: some minutes"
(cd crates/tiling_c && rt lib)
mkdir -p "$folder"
cp crates/tiling_c/out/libtiling_c.a "$archive"
