#!/usr/bin/env bash
# Times `hx replay` on scripts of 1,024, 4,096 and 16,384 calls over 256 keys, and on one hot key.
# It prints seconds (the best of three) and the ratio of neighbours, which stays below 5 where the
# keys are spread: four times the calls take about four times as long at most. It prints the
# greatest memory of the largest run too, which stays below 64 bytes for each byte of script plus 64
# MiB.
set -eu
. "$(dirname "${BASH_SOURCE[0]}")/common.sh"

# script CALLS KEYS: one session that puts and gets in turn
script() {
  printf 'hx 1\nspace bench\nkey k 1\nstring color\nstring size\nservers 1\ntolerate 0\nsession 1\n'
  awk -v calls="$1" -v keys="$2" 'BEGIN {
    for (i = 0; i < calls; i++) {
      key = (i * 7919) % keys
      if (i % 4 == 3) printf "get \"k%d\"\n", key
      else printf "put \"k%d\" color=\"c%d\" size=\"s%d\"\n", key, i % 7, i % 11
    }
  }'
}

for keys in 256 1; do
  [ "$keys" = 1 ] && printf 'one hot key:\n' || printf '%s keys:\n' "$keys"
  before=''
  for calls in 1024 4096 16384; do
    script "$calls" "$keys" >"$work/script.hx"
    now=$(seconds replay "$work/script.hx")
    if [ -n "$before" ]; then
      ratio=$(ratio "$now" "$before")
      printf '%6s calls: %s s, %s times the one before\n' "$calls" "$now" "$ratio"
    else
      printf '%6s calls: %s s\n' "$calls" "$now"
    fi
    before=$now
  done
done

script 16384 256 >"$work/script.hx"
kilobytes=$( { /usr/bin/time -f %M "$program" replay <"$work/script.hx" >"$work/written"; } 2>&1 )
awk -v used="$kilobytes" -v bytes="$(wc -c <"$work/script.hx")" 'BEGIN {
  printf "memory of 16384 calls: %d kilobytes, %.2f of what is allowed\n", used, 1024 * used / (64 * bytes + 67108864) }'
