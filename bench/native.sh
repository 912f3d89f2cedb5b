#!/bin/sh
# Makes nightplan for this processor, to be measured: `bench/native.sh FOLDER` leaves FOLDER/nightplan. On x86-64 that is the program
# itself. The kit compiles for x86-64 alone, so elsewhere there is nothing to measure.
set -eu
folder=$1
machine=$(uname -m)
if [ "$machine" != x86_64 ]; then
    echo "bench: the kit compiles for x86-64, and this is $machine" >&2
    exit 1
fi
cp crates/nightplan/out/nightplan "$folder/nightplan"
