#!/bin/sh
# The command pb, as in: ./pb tidy FILE.
# It runs the program in dist/, if that was built from the sources as they stand and runs on this machine. Otherwise it runs the
# one that ./build makes, and builds it first if the sources have changed.
set -eu
top=$(dirname "$(readlink -f "$0")")
if ! home=$("$top/dist/home"); then
    "$top/build" || exit 3
    home=$top/out
fi
exec "$home/pb" "$@"
