#!/usr/bin/env bash
# Times `hx plan` on 16,384 searches for one key each, in a space whose key is cut into 1 region and
# in one whose key is cut into 256. It prints seconds (the best of three) and their ratio, which
# stays below 1.5: a plan costs as much as it names, and each of these names one region.
set -eu
. "$(dirname "${BASH_SOURCE[0]}")/common.sh"

# script PARTS: one session that searches for each of 16,384 keys
script() {
  printf 'hx 1\nspace bench\nkey k %s\nstring color\nservers 1\ntolerate 0\nsession 1\n' "$1"
  awk 'BEGIN { for (i = 0; i < 16384; i++) printf "search k=\"k%d\"\n", i }'
}

script 1 >"$work/one.hx"
script 256 >"$work/many.hx"
one=$(seconds plan "$work/one.hx")
many=$(seconds plan "$work/many.hx")
printf 'key in   1 region:  %s s\n' "$one"
printf 'key in 256 regions: %s s, %s times as long\n' "$many" "$(ratio "$many" "$one")"
