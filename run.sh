#!/bin/sh
# Runs a proved program by its name: `./run.sh nightplan < FILE`. The kit compiles programs for x86-64.
set -eu
exec "$(dirname "$0")/crates/$1/out/$1"
