#!/usr/bin/env bash
# Times `hx replay` of puts along chains: 4 servers, each region on two of them, two declared
# subspaces, 4 sessions, and 4,096 and 16,384 puts over 256 keys. It prints seconds (the best of
# three), microseconds for each entry, and the ratio of those, which stays below 2: an entry costs
# what its slot and its posts cost, however long the run is.
set -eu
. "$(dirname "${BASH_SOURCE[0]}")/common.sh"

# script PUTS: so many puts, a quarter of them in each session
script() {
  printf 'hx 1\nspace bench\nkey k 4\nstring color\nint size 0 999\nsubspace color 4\nsubspace size 4\nservers 4\ntolerate 1\n'
  awk -v puts="$1" 'BEGIN {
    for (i = 0; i < puts; i++) {
      if (i % (puts / 4) == 0) printf "session %d\n", i / (puts / 4) + 1
      printf "put \"k%d\" color=\"c%d\" size=%d\n", (i * 7919) % 256, (i * 31) % 4, (i * 104729) % 1000
    }
  }'
}

# entries FILE: the last entry at which a call ended, which is the number of entries of the run
entries() {
  awk '$1 == "call" && $6 > last { last = $6 } END { print last + 0 }' "$1"
}

before=''
for puts in 4096 16384; do
  script "$puts" >"$work/script.hx"
  taken=$(seconds replay "$work/script.hx")
  each=$(awk -v t="$taken" -v n="$(entries "$work/written")" 'BEGIN { if (n > 0) printf "%.3f", 1000000 * t / n; else printf "-" }')
  printf '%6d puts: %s s, %s entries, %s microseconds each' "$puts" "$taken" "$(entries "$work/written")" "$each"
  [ -z "$before" ] || printf ', %s times as long' "$(ratio "$each" "$before")"
  printf '\n'
  before=$each
done
