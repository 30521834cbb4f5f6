#!/usr/bin/env bash
# Times how scripts of about 1, 4 and 16 MiB are read, by `hx plan`: four kinds of text, three sizes
# each, all within the limits of 16,777,216 bytes and 16,384 calls. It prints seconds (the best of
# three) and the ratio of neighbours, which stays near 4: four times the bytes take about four times
# as long.
set -eu
. "$(dirname "${BASH_SOURCE[0]}")/common.sh"

# script KIND BLOCKS: blocks of 1,600 bytes over four sessions, and a search in the last
script() {
  printf 'hx 1\nspace bench\nkey k 4\nstring color\nint size 0 999\nsubspace color 4, size 4\nservers 4\ntolerate 1\n'
  awk -v kind="$1" -v blocks="$2" 'BEGIN {
    letters = "abcdefghijklmnopqrstuvwxyz"
    while (length(long) < 1600) long = long letters
    for (i = 0; i < 1600; i++) empty = empty "\n"
    line = "# " substr(long, 1, 77) "\n"
    for (i = 0; i < 20; i++) comments = comments line
    call = "put \"%06d\" color=\"" substr(long, 1, 1000) "\" size=%03d # " substr(long, 1, 563) "\n\n\n\n"
    for (i = 0; i < blocks; i++) {
      last = i % (blocks / 4) == blocks / 4 - 1
      if (i % (blocks / 4) == 0) printf "session %d\n", i / (blocks / 4) + 1
      if (kind == "calls") printf call, i, i % 1000
      else if (kind == "comments") printf "%s", comments
      else if (kind == "empty lines") printf "%s", empty
      else printf "#%s%s", substr(long, 1, 1598), (last ? "\n" : "#")
    }
    print "search size=100..300"
  }'
}

for kind in calls comments 'empty lines' 'long lines'; do
  printf '%s:\n' "$kind"
  before=''
  for blocks in 652 2608 10432; do
    script "$kind" "$blocks" >"$work/script.hx"
    bytes=$(wc -c <"$work/script.hx")
    now=$(seconds plan "$work/script.hx")
    if [ -n "$before" ]; then
      ratio=$(ratio "$now" "$before")
      printf '%9s bytes: %s s, %s times the one before\n' "$bytes" "$now" "$ratio"
    else
      printf '%9s bytes: %s s\n' "$bytes" "$now"
    fi
    before=$now
  done
done
