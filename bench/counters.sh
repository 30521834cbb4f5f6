#!/usr/bin/env bash
# Counts the instructions of `hx replay` (valgrind's callgrind) on 1,024 calls of 16 sessions over
# one key and over 256: puts, conditional puts whose test holds, and atomic additions.
#
#     bench/counters.sh [PROGRAM]
#
# An addition costs at most 1.1 times a conditional put. Of a PROGRAM compiled without proofs
# (tools/unproved.sh) the ratios alone say something.
set -eu
if [ $# -gt 0 ]; then
  program=$1 work=$(mktemp -d)
  trap 'rm -rf "$work"' EXIT
else
  . "$(dirname "${BASH_SOURCE[0]}")/common.sh"
fi

# script KIND KEYS: the keys are put first, each by the session that comes first to it
script() {
  printf 'hx 1\nspace counters\nkey k 4\nint n 0 1000000\nstring v\nsubspace n 4\nservers 4\ntolerate 1\n'
  awk -v kind="$1" -v keys="$2" 'BEGIN {
    for (s = 0; s < 16; s++) {
      printf "session %d\n", s + 1
      for (k = s; k < keys; k += 16) printf "put \"k%d\" n=1 v=\"x\"\n", k
      for (c = 0; c < 64; c++) {
        k = (s + 16 * c) % keys
        if (kind == "put") printf "put \"k%d\" n=%d\n", k, c
        if (kind == "cput") printf "cput \"k%d\" if v=\"x\" set n=%d\n", k, c
        if (kind == "atomic") printf "atomic \"k%d\" add n=1\n", k
      }
    }
  }'
}

for keys in 1 256; do
  for kind in put cput atomic; do
    script "$kind" "$keys" >"$work/script.hx"
    valgrind --tool=callgrind --callgrind-out-file=/dev/null "$program" replay <"$work/script.hx" 2>&1 >/dev/null |
      awk -v what="$kind of $keys keys" '/refs:/ { gsub(",", "", $NF); printf "%-18s %7.1f million instructions\n", what, $NF / 1e6 }'
  done
done
