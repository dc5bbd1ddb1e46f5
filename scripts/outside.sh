#!/usr/bin/env bash
# The compiled library from outside: makes the static library, compiles the programs of c/ against it, runs each under
# valgrind and compares what it prints with its .out beside it, then compares the library with the model of outside/.
set -euo pipefail

cd "$(dirname "${BASH_SOURCE[0]}")/.."
(cd crates/kamzhules && rt lib)
mkdir -p target

for program in burst receive; do
    cc -std=c11 -Wall -Wextra -Werror -I include "c/$program.c" crates/kamzhules/out/libkamzhules.a -o "target/$program"
    valgrind -q --error-exitcode=9 "target/$program" >"target/$program.out"
    diff "c/$program.out" "target/$program.out"
    echo "c/$program.c: as expected, and valgrind has no complaint"
done

export CARGO_TARGET_DIR=$PWD/target/outside
cd outside
cargo test --release --offline -- --nocapture
