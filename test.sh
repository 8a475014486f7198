#!/usr/bin/env bash
# Passes the tests: the proofs, what refused each must-fail edit, the library that the proofs allow, the vectors computed by the definitions,
# and the tests of the program, of the command and of callers in Rust, C, C++ and, where it is installed, Python. Stops at the first failure
# and reports where. The last line is that of `rt ci`, and is printed only if everything passed, or if `rt ci` itself failed.
set -euo pipefail
cd "$(dirname "$0")"

# All temporary files are below it, so that none outlives the run. The program is run as nobody, who has to get there.
scratch=$(mktemp -d)
chmod 711 "$scratch"
export TMPDIR=$scratch
running='' # the process group of what runs in the background
now='' # the part that is waited for
ended() {
  local status=$?
  [[ $status -eq 0 ]] || printf '== FAILED: %s\n' "$now"
  [[ $status -eq 0 || $now != proofs || ! -s $scratch/verdict ]] || tail -n 1 "$scratch/verdict"
  [[ -z $running ]] || kill -- "-$running" 2>/dev/null || true
  rm -rf "$scratch"
}
trap ended EXIT

part() {
  local name=$1 began=$SECONDS
  now=$name
  shift
  printf '== %s\n' "$name"
  "$@"
  printf '== %s: %d s\n' "$name" $((SECONDS - began))
}

# Every crate, every must-fail edit and the program, in this folder as it is. An edit that does not fit the code fails here too: `rt ci`
# passes it, and counts it as bad in its line `rt: ok`.
proofs() {
  rt ci 2>&1 | tee "$scratch/verdict"
  if ! grep -q '^rt: ok; ' "$scratch/verdict" || grep -q '^rt: ok; .*, [0-9]* bad' "$scratch/verdict"; then
    echo 'test.sh: a must-fail edit is bad'
    return 1
  fi
}

# `rt ci` requires only that each edit is refused. Here a law, a contract or a fact of a proof has to refuse it. Built without optimization,
# which takes a third of the time.
refusals() {
  cargo run --offline --quiet --package harness --no-default-features --bin edit_logs -- "$scratch/verdict"
}

# A repository of two crates: the definitions, and every vector as an equation that the prover computes. It is outside this
# repository, where `rt ci` would find crates that it does not know.
vectors_by_definitions() {
  cargo run --release --offline --quiet --package harness --no-default-features --bin definitions -- "$scratch/definitions"
  cd "$scratch/definitions/crates/vectors"
  rt check
}

# Beside the library, which is built by one processor.
start_vectors() {
  local began=$SECONDS
  set -m
  (
    vectors_by_definitions
    printf 'beside the library: %d s\n' "$((SECONDS - began))"
  ) >"$scratch/vectors" 2>&1 &
  running=$!
  set +m
}

end_vectors() {
  local status=0
  wait "$running" || status=$?
  running=''
  cat "$scratch/vectors"
  return "$status"
}

# In a checkout in which nothing was proved before, the libraries are there as `rt ci` has proved them a moment ago, and the archives are
# made over these. Elsewhere `rt ci` leaves what earlier commands made, and `rt lib` looks what is still right of it. The program is the one
# that `rt ci` has built and run.
library() {
  if [[ $is_fresh == yes ]]; then
    make STATIC_LIBRARY=../../scripts/archive.sh
  else
    make
  fi
  mkdir -p target/bin
  cp crates/program/out/program target/bin/program
}

callers() {
  cargo test --release --offline --workspace --quiet -- --nocapture
}

is_fresh=yes
! compgen -G 'crates/*/out' >/dev/null || is_fresh=no
part 'proofs' proofs
part 'what refused the edits' refusals
start_vectors
part 'library' library
part 'vectors computed by the definitions' end_vectors
part 'tests of the program, the command and the callers' callers
printf '== all: %d s\n' "$SECONDS"
tail -n 1 "$scratch/verdict"
