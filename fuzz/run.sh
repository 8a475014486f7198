#!/usr/bin/env bash
# Fuzzes the calls of the library at their boundary, guided by the branches that are taken: fuzz/run.sh [SECONDS [FOLDER]].
# Then the inputs that were kept are handed once more to the library alone, as it is and under valgrind. It needs the library (`make`),
# clang with libFuzzer (Debian: clang, libclang-rt-dev) and, for the last part, valgrind. A finding stays in FOLDER, and the exit status
# is not 0.
set -euo pipefail
seconds=${1:-60}
folder=$(realpath -m "${2:-target/fuzz}")
cd "$(dirname "$0")/.."
archive=$PWD/target/staticlib/libhemakuliwi.a
crates=(c_files c_convert c_pieces c_ends c_cells)
mkdir -p "$folder"/{toolchain/bin,covered,corpus,findings}
[[ -f $archive ]] || { echo "fuzz: no $archive: run make"; exit 2; }

# A copy of the kit's toolchain, of links, whose clang compiles each module twice: as it is to be, and with counters at its branches.
covered_objects() {
  local kit crate
  kit=$(dirname "$(rt doc)")
  find "$kit/toolchain" -mindepth 1 -maxdepth 1 ! -name bin -exec ln -sfn -t "$folder/toolchain" {} +
  find "$kit/toolchain/bin" -mindepth 1 ! -name clang -exec ln -sfn -t "$folder/toolchain/bin" {} +
  cat >"$folder/toolchain/bin/clang" <<STAND_IN
#!/usr/bin/env bash
real=$kit/toolchain/bin/clang
"\$real" "\$@" && exec "\$real" "\$@" -fsanitize-coverage=inline-8bit-counters,pc-table,trace-cmp -o "$folder/covered/module.o"
STAND_IN
  chmod +x "$folder/toolchain/bin/clang"
  for crate in "${crates[@]}"; do
    rm -f "$folder/covered/module.o"
    (cd "crates/$crate" && ../../scripts/archive.sh "$folder/covered/$crate.a" "$folder/toolchain") >"$folder/covered/$crate.log" 2>&1
    mv "$folder/covered/module.o" "$folder/covered/$crate.o"
  done
}

build() {
  local object flags=(-std=c11 -D_GNU_SOURCE -Wall -Wextra -O2 -g -Iinclude)
  gcc "${flags[@]}" -c fuzz/boundary.c -o "$folder/boundary.o"
  gcc "${flags[@]}" -c fuzz/target.c -o "$folder/target.o"
  gcc "${flags[@]}" fuzz/replay.c "$folder/boundary.o" "$archive" -o "$folder/replay"
  nm -g --defined-only "$archive" | awk '$2 == "T" { print $3, "covered_" $3 }' >"$folder/names"
  echo boundary covered_boundary >>"$folder/names"
  for object in "$folder"/boundary.o "${crates[@]/#/$folder/covered/}"; do
    objcopy --redefine-syms="$folder/names" "${object%.o}.o" "$folder/covered/covered_$(basename "${object%.o}").o"
  done
  clang -fsanitize=fuzzer "$folder/target.o" "$folder/boundary.o" "$folder"/covered/covered_*.o "$archive" -o "$folder/fuzz"
}

covered_objects
build
python3 fuzz/seeds.py "$folder/seeds"
"$folder/fuzz" -max_total_time="$seconds" -max_len=5000 -len_control=0 -timeout=60 -dict=fuzz/dictionary -use_value_profile=1 \
  -artifact_prefix="$folder/findings/" -print_final_stats=1 "$folder/corpus" "$folder/seeds" 2>&1 |
  tee "$folder/log" | grep -E 'INFO: Loaded|INITED|DONE|^Done|boundary:|ERROR|SUMMARY|stat::|Test unit written'
find "$folder/seeds" "$folder/corpus" -type f -print0 >"$folder/inputs"
xargs -0 -a "$folder/inputs" "$folder/replay"
if command -v valgrind >/dev/null; then
  xargs -0 -a "$folder/inputs" valgrind --quiet --error-exitcode=1 "$folder/replay"
else
  echo 'fuzz: valgrind is not installed; the inputs were not replayed under it'
fi
