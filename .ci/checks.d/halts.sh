#!/usr/bin/env bash
# A leader halts after any number of entries of three calls: all of them end as they would have.
. "$(dirname "${BASH_SOURCE[0]}")/../common.sh"
needs "$program"

script=cases/trace/put_moves_an_object.hx
ended=$'u1.1 done\nu1.2 found genre="b" year=1999\nu1.3 done'
# The steps that the schedule takes where nobody halts.
steps=$(hx replay --trace <"$script" |
  sed -n 's/^entry [0-9]* \([^ ]*\) tick$/tick \1/p; s/^entry [0-9]* [^ ]* \(deliver .*\)$/\1/p')
[ "$(wc -l <<<"$steps")" -eq 33 ] || complain "$script has other entries than 33"
for entries in $(seq 0 33); do
  report=$({
    cat "$script"
    printf 'steps\n'
    head -n "$entries" <<<"$steps"
    printf 'halt s1\n'
  } | hx replay)
  told=$(sed -n 's/^call \(.*\) begin .* -> \(done\|found\) version [0-9]*/\1 \2/p' <<<"$report")
  [ "$told" = "$ended" ] ||
    complain "where the leader halts after $entries entries the calls end as '$told'"
done
exit "$failed"
