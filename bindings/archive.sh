#!/usr/bin/env bash
# The archive that programs link, target/staticlib/libcapi.a, from the crate `capi_c`: proved, compiled, and every function made to
# start on a cache line, wherever the linker puts it.
#     archive.sh            builds it
#     archive.sh FROM TO    does the last step alone, on an archive that another checkout built
set -euo pipefail

# Every function has a section of its own.
align() {
  local sections section args=()
  sections=$(objdump -h "$1" | grep -oE '\.text\.[^ ]+' | sort -u)
  for section in $sections; do args+=(--set-section-alignment "$section=64"); done
  objcopy "${args[@]}" "$1" "$2"
}

if [ $# -eq 2 ]; then
  align "$1" "$2"
  exit
fi
cd "$(dirname "$0")/.."
(cd crates/capi_c && rt lib)
mkdir -p target/staticlib
align crates/capi_c/out/libcapi_c.a target/staticlib/libcapi.a
