#!/usr/bin/env bash
# Builds and runs the examples, a day in C and in Rust, which must print the same, and a walk.
# CAPI_LIB_DIR names the folder with libcapi.a.
set -euo pipefail
: "${CAPI_LIB_DIR:?must name the folder with libcapi.a}"
CAPI_LIB_DIR=$(cd "$CAPI_LIB_DIR" && pwd)
export CAPI_LIB_DIR
cd "$(dirname "$0")"
mkdir -p target

rust_example() {
  cargo run --offline --quiet --release --manifest-path rust/Cargo.toml --example "$1"
}

"${CC:-cc}" -std=c99 -O2 -Wall -Wextra -Werror -I ../include c/day.c \
    "$CAPI_LIB_DIR/libcapi.a" -o target/day-c
target/day-c | tee target/day-c.txt

rust_example day > target/day-rust.txt
cmp target/day-c.txt target/day-rust.txt
echo "C and Rust print the same"

rust_example walk
