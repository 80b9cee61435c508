#!/bin/sh
# From a fresh clone: makes and installs what is missing, builds, and compares
# the library with the original on a million answers of each kind, or as many as
# the first argument says. Further arguments go to `compare`.
set -eu
cd "$(dirname "$0")"
./setup.sh
./library.sh
count="${1:-1000000}"
[ $# -gt 0 ] && shift
cargo build --release -j1 -p compare
./target/release/compare --count "$count" "$@"
