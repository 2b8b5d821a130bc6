#!/bin/sh
# Builds eden_lanes as a static library and a program that measures it, and runs that. README.md says what is measured. It needs the kit, rustc,
# some 900 MB of memory and five minutes.
#
# usage: bench/run.sh
# KIT names the kit's folder, if it is another than that of `rt`.
set -e
most=0
. "$(dirname "$0")/begin.sh"

needs rustc
build rig_lanes librig_lanes.a lib
kit=${KIT:-$(dirname "$(rt doc)")}
out=$root/crates/rig_lanes/out
rustc --edition 2021 -C opt-level=3 -C target-cpu=x86-64-v2 "$root/bench/lanes.rs" -o "$out/lanes" \
    -C link-arg="$out/librig_lanes.a" -C link-arg="$kit/c/liblibc_c.a"
"$out/lanes"
