#!/bin/sh
# Measures an audit of 100,000 calls beside the calls themselves. README.md says what is measured, and how. It needs the kit.
#
# usage: bench/audit.sh
set -e
most=0
. "$(dirname "$0")/begin.sh"

build rig_audit rig_audit run
for try in 1 2 3 4 5; do measure rig_audit; done
