#!/bin/sh
# Measures rounds of a mirror, and a plain program that does the like with tables of Rust's standard library. README.md says how. It needs the
# kit and rustc.
#
# usage: bench/rounds.sh
set -e
most=0
. "$(dirname "$0")/begin.sh"

needs rustc
build rig_mounts rig_mounts run -- rounds
rustc -C opt-level=3 "$root/bench/rounds.rs" -o "$root/crates/rig_mounts/out/plain"
echo "a mirror:"
measure rig_mounts rounds
echo "plain tables:"
"$root/crates/rig_mounts/out/plain"
