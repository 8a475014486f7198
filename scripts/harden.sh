#!/usr/bin/env bash
# Looks for what proofs and tests could have missed: make harden [SECONDS=60] [SEED=S]. For SECONDS the calls are compared with the
# reference implementation on random inputs, and for as many they are fuzzed at their boundary. It needs the library, which `make` proves
# and builds first, cargo, gcc and python3; for fuzzing clang with libFuzzer, and valgrind to replay under it. docs/TESTING.md has what was
# found so far.
set -euo pipefail
cd "$(dirname "$0")/.."
seconds=${1:-60}
# A run takes one seed for each thousand inputs, so that those of two days share none.
seed=${2:-$(($(date +%s) * 1000000))}

printf '== compared with the reference implementation\n'
cargo run --release --offline --quiet --package harness --bin compare -- --seed "$seed" --seconds "$seconds"
printf '== wrong libraries at the boundary\n'
fuzz/check.sh
printf '== fuzzed at the boundary\n'
if command -v clang >/dev/null; then
  fuzz/run.sh "$seconds"
else
  printf 'clang is not installed: not fuzzed\n'
fi
