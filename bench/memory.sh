#!/usr/bin/env bash
# Refuses memory: runs `hx replay` on examples with each of its allocations failing in turn, one in
# each run, and prints how many were failed. Each run ends with status 0 and the same bytes, or with
# status 6, its line, and nothing written. A C compiler is needed, for the malloc that fails
# (failing_malloc.c).
set -eu
. "$(dirname "${BASH_SOURCE[0]}")/common.sh"

cc -shared -fPIC -O2 -o "$work/failing_malloc.so" "$top/bench/failing_malloc.c" -ldl
failing="LD_PRELOAD=$work/failing_malloc.so"
wrong=0

for name in "${@:-first joiner library}"; do
  for example in $name; do
    script=$top/examples/$example.hx
    env "$failing" "COUNT_TO=$work/count" "$program" replay <"$script" >"$work/whole"
    count=$(cat "$work/count") fine=0 refused=0
    for number in $(seq 1 "$count"); do
      status=0
      env "$failing" "FAIL_AT=$number" "$program" replay <"$script" >"$work/out" 2>"$work/err" || status=$?
      if [ "$status" -eq 0 ] && cmp -s "$work/out" "$work/whole"; then
        fine=$((fine + 1))
      elif [ "$status" -eq 6 ] && [ ! -s "$work/out" ]; then
        refused=$((refused + 1))
      else
        printf 'wrong: %s with allocation %d failing ends with %d\n' "$example" "$number" "$status"
        wrong=1
      fi
    done
    printf '%s: %d allocations failed in turn: %d runs ended for want of memory, %d went on\n' \
      "$example" "$count" "$refused" "$fine"
  done
done
exit "$wrong"
