#!/bin/sh
# The original's time and the library's, call by call, in one run: a table for
# desks of 4, 16 and 48 panes. The first argument is the number of repetitions.
set -eu
cd "$(dirname "$0")"
./setup.sh
./library.sh
cargo build --profile speed -j1 -p compare --bin bench
exec ./target/speed/bench "$@"
