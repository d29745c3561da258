#!/usr/bin/env bash
# Times the program of bench/terms.txt as LLVM builds it, in a copy of the repository's last commit: bench/terms.sh FOLDER, where FOLDER
# does not exist yet. It first proves the crates below. The gate does not run it.
set -e
here=$(cd "$(dirname "$0")/.." && pwd)
to=${1:?a folder for the copy}
git clone -q "$here" "$to"
mkdir -p "$to/crates/bench_terms/src"
cp "$here/bench/terms.txt" "$to/crates/bench_terms/src/main.rt"
echo 'bench_terms: cells i80 xlt_pool sym_terms' >> "$to/crates.txt"
cd "$to/crates/bench_terms"
rt run
time out/bench_terms
