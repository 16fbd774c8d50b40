#!/usr/bin/env bash
# The times of two builds against each other, call by call: ./compare.sh BEFORE AFTER [quick]
# Each is an archive (a path that ends in .a), or a `bench` that another checkout built, where the two differ in image or calls.
set -euo pipefail
shopt -s inherit_errexit
[ $# -ge 2 ] || { echo "usage: $0 BEFORE AFTER [quick]" >&2; exit 2; }
before=$(realpath "$1")
after=$(realpath "$2")
shift 2
cd "$(dirname "$0")"

# Whether an archive has every function that is linked; one from before images had a tail has not, and needs its own `bench`. So does
# one whose pages bring no change count, which its names do not tell.
is_whole() {
  local missing
  missing=$(comm -23 <(grep -oE '\bbcf_\w+' ../bindings/rust/src/packed.rs | sort -u) \
    <(nm --defined-only "$1" | grep -oE '\bbcf_\w+$' | sort -u))
  [ -z "$missing" ] || { echo "$1 has no ${missing//$'\n'/, }: give the bench of its own checkout" >&2; return 1; }
}

# The `bench` of an archive, in a target folder of its own. Every function starts on a cache line, as in the archive that ships.
bench_of() {
  local lib=target/$1/lib
  case $2 in
  *.a)
    is_whole "$2"
    mkdir -p "$lib"
    ../bindings/archive.sh "$2" "$lib/libcapi.a"
    CAPI_LIB_DIR=$PWD/$lib cargo build --offline --release --quiet -p bench --features bench/rows --target-dir "target/$1"
    echo "target/$1/release/bench"
    ;;
  *) echo "$2" ;;
  esac
}

before=$(bench_of before "$before")
after=$(bench_of after "$after")
cargo build --offline --release --quiet -p bench --bin compare
# Both on one core, so that neither has the better one.
taskset -c 0 target/release/compare "$before" "$after" "$@"
