#!/bin/sh
# Any bytes and any numbers through every call of the library, for a minute or
# as many seconds as the first argument says; a second one is the seed. With
# VALGRIND=1 the program runs under valgrind, some forty times slower.
set -eu
cd "$(dirname "$0")"
./setup.sh
./library.sh
cargo build --release -j1 -p compare
if [ -n "${VALGRIND:-}" ]; then
    exec valgrind --error-exitcode=1 --quiet ./target/release/fuzz "$@"
fi
exec ./target/release/fuzz "$@"
