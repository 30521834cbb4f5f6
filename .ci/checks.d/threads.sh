#!/usr/bin/env bash
# Soaks, runs and shares on threads. One that doesn't end is stopped.
. "$(dirname "${BASH_SOURCE[0]}")/../common.sh"
needs "$program"

# A soak writes the same summary on any number of threads: what its calls make one after another on
# one map (bench/soak.py).
soaked() {
  hx soak "$1" "$2" --workers "$3" | cmp -s - "$4" || complain "hx soak $1 $2 --workers $3 doesn't write $4"
}
for workers in 1 2 4; do
  soaked 7 256 "$workers" examples/soak.summary
  for summary in cases/soak/*.summary; do
    words=${summary##*/} words=${words%.summary}
    soaked "${words%_*}" "${words#*_}" "$workers" "$summary"
  done
done

# On threads every call is answered, whatever is lost or repeated, and as many posts are as the
# words say. Where several threads lose messages by number, one may lose the same message each time
# that it is sent again (of 400 runs nine on four threads): such a run is made anew. One that loses
# by a draw ends.
ran() {
  words=$*
  for _ in 1 2 3 4; do
    report=$(timeout 20 "$program" run "$@" <examples/library.hx) && break
  done || complain "hx run $words fails"
  [[ $report != *'-> open'* && $report == *$'\nend' ]] || complain "hx run $words leaves a call open"
  consistent "hx run $words" <<<"$report"
}
tells() {
  grep -qE "^driver $1\$" <<<"$report" || complain "hx run $words has no line of a driver as '$1'"
}
ran --workers 1
tells '1 posts [0-9]+ deliver [0-9]+ lose 0 twice 0'
ran --workers 4
tells '4 posts [0-9]+ deliver [0-9]+ lose 0 twice 0'
ran --workers 1 --lose 7
tells '1 posts [0-9]+ deliver [0-9]+ lose [1-9][0-9]* twice 0'
ran --workers 1 --repeat 2
tells '1 posts [0-9]+ deliver [0-9]+ lose 0 twice [1-9][0-9]*'
# Each thread loses and repeats, the last one too.
ran --workers 4 --lose 7
for driver in 1 2 3 4; do tells "$driver posts [0-9]+ deliver [0-9]+ lose [1-9][0-9]* twice 0"; done
ran --workers 4 --repeat 2
for driver in 1 2 3 4; do tells "$driver posts [0-9]+ deliver [0-9]+ lose 0 twice [1-9][0-9]*"; done
ran --workers 4 --lose 3 --repeat 5 --seed 7
for driver in 1 2 3 4; do tells "$driver posts [0-9]+ deliver [0-9]+ lose [1-9][0-9]* twice [1-9][0-9]*"; done
for seed in 1 2 3; do
  timeout 20 "$program" run --workers 4 --lose 3 --seed "$seed" <examples/library.hx >/dev/null || complain "hx run --workers 4 --lose 3 --seed $seed fails"
done
ran --workers 16
tells '16 posts [0-9]+ deliver [0-9]+ lose 0 twice 0'

# Each of several spaces has its share of the threads, and its lines of drivers.
for workers in 1 3 16; do
  report=$(hx run --workers "$workers" --lose 5 --seed "$workers" <examples/shop.hx) || complain "hx run --workers $workers <examples/shop.hx fails"
  [[ $report != *'-> open'* && $report == 'report 2'*$'\nspace customers\n'*$'\nspace orders\n'*$'\nend' ]] || complain "hx run --workers $workers <examples/shop.hx leaves a call open"
  share=$((workers < 8 ? workers : 8))
  [ "$(grep -c '^driver ' <<<"$report")" -eq $((2 * share)) ] || complain "hx run --workers $workers <examples/shop.hx hasn't $share drivers for each space"
  consistent "hx run --workers $workers <examples/shop.hx" <<<"$report"
done

# Additions of two sessions to one number: as many as were done are in it.
counted=$(hx run --workers 4 <cases/replay/counted_by_two_sessions.hx)
done_adds=$(grep -c 'atomic .* -> done ' <<<"$counted")
[[ $counted == *"n=$done_adds"$'\nepoch 1'* ]] || complain "additions on threads don't add up"
[ "$(grep -c '^call u1\..* atomic .* -> done ' <<<"$counted")" -eq 10 ] || complain 'an addition behind its own put is not done'
consistent 'additions on threads' <<<"$counted"

# However many callers share a store, and however they take turns, every call is answered.
for workers in $(seq 16); do
  scripts=(cases/share/day_of_a_library.hx)
  case $workers in 3 | 16) scripts=(cases/share/*.hx) ;; esac
  for script in "${scripts[@]}"; do
    report=$(hx share --workers "$workers" <"$script") || complain "hx share --workers $workers <$script fails"
    [[ $report != *'-> open'* && $report == *$'\nend' ]] || complain "hx share --workers $workers <$script leaves a call open"
    consistent "hx share --workers $workers <$script" <<<"$report"
  done
done
exit "$failed"
