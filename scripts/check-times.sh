#!/usr/bin/env bash
# Measures a check of each crate: scripts/check-times.sh [NAME..] prints a line `NAME proved (N s)` for each, of all crates if none is named.
# What earlier checks of a crate kept is put away first, and the libraries below it are built beforehand. On a machine with other checkouts
# `rt check` may begin with what these have kept, and then takes less.
set -euo pipefail
cd "$(dirname "$0")/.."
names=("$@")
[[ $# -gt 0 ]] || mapfile -t names < <(sed -n 's/^\([a-z][a-z0-9_]*\)[ :].*/\1/p' crates.txt)
for name in "${names[@]}"; do
  read -ra uses < <(sed -n "s/^${name}\\( [a-z0-9]*\\)\\?://p" crates.txt)
  for below in "${uses[@]}"; do
    [[ ! -d crates/$below ]] || (cd "crates/$below" && rt lib >/dev/null)
  done
  rm -rf "crates/$name/out"
  began=$SECONDS
  (cd "crates/$name" && rt check >/dev/null)
  printf '%s proved (%d s)\n' "$name" $((SECONDS - began))
done
