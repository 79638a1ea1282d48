#!/usr/bin/env bash
# Builds everything that is measured, in target/ and in the crates' folders out/, and prints the tables. Nothing else
# should run on the machine.
# usage: bench/run.sh
set -euo pipefail
cd "$(dirname -- "$0")/.."
kit=$(dirname -- "$(rt doc)")
mkdir -p target
(cd crates/yardjudge && rt run </dev/null) >target/bench.log 2>&1
(cd crates/bench_export && rt lib) >>target/bench.log 2>&1
rustc --edition 2024 -C opt-level=3 bench/main.rs -L crates/bench_export/out -l static=bench_export -L "$kit/c" -l static=libc_c -l static=os_c -o target/bench
g++ -std=c++17 -O2 bench/plain.cpp -o target/plain_cpp
folder=$(mktemp -d)
trap 'rm -rf -- "$folder"' EXIT
echo "$(nproc) processors, $(grep -m1 'model name' /proc/cpuinfo | cut -d: -f2- | xargs), $(date -u +%F)"
echo "$(rt version); $(rustc --version); $(g++ --version | head -1)"
echo
target/bench
echo
target/bench programs "$PWD/crates/yardjudge/out/yardjudge" "$PWD/target/plain_cpp" "$folder"
