#!/usr/bin/env bash
# Measures the proved reader and converters against memcpy, the reference implementation and, where Debian's packages librust-csv-dev and
# librust-serde-json-dev are installed, csv-core, csv and serde_json. Without a folder it makes its own tables, and reports at the end
# which thresholds are met; with --thresholds it measures only what has a threshold. `make` proves and builds the library first:
#
#   make benchmark [ARGS='FOLDER [ROUNDS]']
#   make thresholds [ROUNDS=N]
set -euo pipefail
arguments=("$@")
if [[ $# -gt 0 && $1 != --thresholds ]]; then
  arguments[0]=$(realpath "$1")
fi
cd "$(dirname "$0")/.."

registry=/usr/share/cargo/registry
if compgen -G "$registry/csv-[0-9]*" >/dev/null && compgen -G "$registry/serde_json-*" >/dev/null; then
  cargo build --release --offline --quiet --manifest-path rust/benchmark/peers/Cargo.toml --target-dir target/peers \
    --config 'source.crates-io.replace-with="system"' --config "source.system.directory=\"$registry\""
  program=target/peers/release/peers
  (cd "$registry" && echo 'with' csv-core-* csv-[0-9]* serde_json-*)
else
  cargo build --release --offline --quiet --package benchmark
  program=target/release/benchmark
  echo 'without csv-core, csv and serde_json, which are not installed: apt-get install librust-csv-dev librust-serde-json-dev'
fi

# On one processor, the last that this process may use.
pinned=()
if command -v taskset >/dev/null; then
  pinned=(taskset --cpu-list "$(taskset --cpu-list --pid $$ | sed 's/.*[ ,-]//')")
fi
"${pinned[@]}" "$program" "${arguments[@]}"
