#!/usr/bin/env bash
# Tries whether the seeds of the boundary notice wrong libraries: fuzz/check.sh. It needs the library (`make`), gcc and python3.
set -euo pipefail
cd "$(dirname "$0")/.."
scratch=$(mktemp -d)
trap 'rm -rf "$scratch"' EXIT
wrapped=$(sed -n 's/^struct .*__wrap_\(hk_[a-z_]*\)(.*/-Wl,--wrap=\1/p' fuzz/wrong.c)
wrongs=$(grep -c 'if (is_wrong(' fuzz/wrong.c)
flags=(-std=c11 -D_GNU_SOURCE -Wall -Wextra -O2 -Iinclude)
# shellcheck disable=SC2086
gcc "${flags[@]}" fuzz/{boundary,replay,wrong}.c target/staticlib/libhemakuliwi.a $wrapped -o "$scratch/replay"
python3 fuzz/seeds.py "$scratch/seeds"
"$scratch/replay" "$scratch"/seeds/*
missed=0
for ((wrong = 1; wrong <= wrongs; wrong++)); do
  if said=$( (WRONG=$wrong "$scratch/replay" "$scratch"/seeds/*) 2>&1 >/dev/null); then
    said='NOT NOTICED'
    missed=$((missed + 1))
  fi
  echo "$wrong: ${said:-ended by a guard page}"
done
echo "$((wrongs - missed)) of $wrongs wrong libraries are noticed"
[[ $missed -eq 0 ]]
