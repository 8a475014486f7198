#!/usr/bin/env bash
# In the folder of a static library: ../../scripts/archive.sh [FILE [TOOLCHAIN]] proves and compiles it, as out/libNAME.a or FILE, over the
# libraries below it as they lie proved in their out/.
#
# It looks only whether they are there, and not whether a source has changed since: ./test.sh calls it right after `rt ci`, which leaves them
# so in a fresh checkout, and fuzz/run.sh after `make`. `rt lib` looks, and proves again what has changed, or what only `rt ci` has proved.
# TOOLCHAIN is used in place of the kit's.
set -euo pipefail
name=${PWD##*/}
file=${1:-out/lib$name.a}
kit=$(dirname "$(rt doc)")
toolchain=${2:-$kit/toolchain}

# What each crate of crates.txt uses.
declare -A uses
while IFS= read -r line; do
  line=${line%%#*}
  [[ $line == *:* ]] || continue
  read -r crate _ <<<"${line%%:*}"
  uses[$crate]=${line#*:}
done <../../crates.txt

declare -A seen
words=(--crate-name "$name" src/lib.rt --extern "std=$kit/rlibs/std.rlib" -L "dependency=$kit/rlibs")
# Names the libraries that a crate uses, and the folders of all below them.
add() {
  local it flag=$2
  for it in ${uses[$1]}; do
    if [[ -z ${uses[$it]+listed} ]]; then
      [[ -z $flag ]] || words+=(--extern "$it=$kit/rlibs/$it.rlib")
      continue
    fi
    local rlib=../$it/out/rlib/$it.rlib
    [[ -e $rlib/format ]] || { echo "archive: $it is not proved: there is no crates/$it/out/rlib" >&2; exit 1; }
    [[ -z $flag ]] || words+=(--extern "$it=$rlib")
    [[ -z ${seen[$it]-} ]] || continue
    seen[$it]=yes
    words+=(-L "dependency=../$it/out/rlib")
    add "$it" ''
  done
}
[[ -n ${uses[$name]+listed} ]] || { echo "archive: crates.txt lists no $name" >&2; exit 1; }
add "$name" direct
mkdir -p out
exec "$kit/bin/rattle" build "${words[@]}" --antt-project "$kit/rattle/logic/antt-project.json" --logic-built "$kit/logic_built" \
  --jobs 2 --links "$name=" --crate-type staticlib --toolchain "$toolchain" --backend llvm -o "$file"
