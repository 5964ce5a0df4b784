#!/bin/sh
# Builds the static library of the code for C and the benchmark, and runs it. It needs libfec (package libfec-dev) and a C compiler.
set -e
cd "$(dirname "$0")/.."
(cd crates/code_c && rt lib)
mkdir -p target
cc -O2 -o target/bench-code bench/code.c crates/code_c/out/libcode_c.a -lfec
target/bench-code
