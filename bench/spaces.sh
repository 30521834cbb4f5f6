#!/usr/bin/env bash
# Counts the instructions of `hx replay` and of `hx run --workers 1` (valgrind's callgrind) on a
# script of eight spaces with 2,048 calls each, beside those of the eight scripts of one space, one
# after another.
#
#     bench/spaces.sh [PROGRAM [CALLS]]
#
# The eight together take at most 1.1 times as much as the eight alone. Of a PROGRAM compiled
# without proofs (tools/unproved.sh) the ratios alone say something.
set -eu
calls=${2:-2048}
if [ $# -gt 0 ]; then
  program=$1 work=$(mktemp -d)
  trap 'rm -rf "$work"' EXIT
else
  . "$(dirname "${BASH_SOURCE[0]}")/common.sh"
fi

# script SPACES: version 1 of space SPACES where it is a number from 1 to 8, and version 2 of all
# where it is `all`. Four sessions call each space in turn: puts, gets, additions and conditional
# puts.
script() {
  awk -v which="$1" -v calls="$calls" 'BEGIN {
    first = which == "all" ? 1 : which
    last = which == "all" ? 8 : which
    if (which == "all") printf "hx 2\nservers 4\ntolerate 1\n"; else printf "hx 1\n"
    for (k = first; k <= last; k++) printf "space space%d\nkey k 4\nint n 0 9999\nstring v\nsubspace n 4\n", k
    if (which != "all") printf "servers 4\ntolerate 1\n"
    for (s = 1; s <= 4; s++) {
      printf "session %d\n", s
      for (c = 0; c < calls / 4; c++) for (k = first; k <= last; k++) {
        name = which == "all" ? " space" k : ""
        key = "\"k" ((c * 7 + s * 13 + k) % 256) "\""
        if (c % 8 < 3) printf "put%s %s n=%d v=\"x\"\n", name, key, (c * 17) % 1000
        else if (c % 8 < 6) printf "get%s %s\n", name, key
        else if (c % 8 == 6) printf "atomic%s %s add n=1\n", name, key
        else printf "cput%s %s if v=\"x\" set n=%d\n", name, key, c % 1000
      }
    }
  }'
}

# counted WORD..: the instructions of the program on $work/script.hx, in millions
counted() {
  valgrind --tool=callgrind --callgrind-out-file=/dev/null "$program" "$@" <"$work/script.hx" 2>&1 >/dev/null |
    awk '/refs:/ { gsub(",", "", $NF); printf "%.1f", $NF / 1e6 }'
}

for words in replay 'run --workers 1'; do
  alone=0
  for space in 1 2 3 4 5 6 7 8; do
    script "$space" >"$work/script.hx"
    # shellcheck disable=SC2086
    alone=$(awk -v a="$alone" -v b="$(counted $words)" 'BEGIN { print a + b }')
  done
  script all >"$work/script.hx"
  # shellcheck disable=SC2086
  together=$(counted $words)
  awk -v words="$words" -v a="$alone" -v b="$together" 'BEGIN {
    printf "%-16s alone %8.1f, together %8.1f million instructions: %.3f\n", words, a, b, b / a }'
done
