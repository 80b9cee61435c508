#!/bin/sh
# Installs what the oracle needs where it is missing: the crate kurbo, as
# Debian packs it. Nothing else comes from outside this repository, except the
# original's sources, which are read from UNDERSTORY_SRC.
set -eu
registry=/usr/share/cargo/registry
if ls "$registry" 2>/dev/null | grep -q '^kurbo-'; then
    echo "kurbo is here: $(ls "$registry" | grep '^kurbo-')"
    exit 0
fi
apt-get update
apt-get install -y librust-kurbo-dev
