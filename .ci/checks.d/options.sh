#!/usr/bin/env bash
# The words of a command: which are refused (cases/words/refused), and what the options of `run` do,
# in any order and where they are left out.
. "$(dirname "${BASH_SOURCE[0]}")/../common.sh"
needs "$program"

# Each line of words is refused by the program, and by ./hx, of which a copy alone has nothing that
# it could build.
usage='2 usage: hx replay or run or soak or plan or share or audit'
bare=$(mktemp -d)
trap 'rm -r "$bare"' EXIT
cp hx "$bare/hx"
refused() {
  told=$(hx "$@" 2>&1 </dev/null)
  told="$? $told"
  [ "$told" = "$usage" ] || complain "hx $* ends with '$told'"
  told=$("$bare/hx" "$@" 2>&1 </dev/null)
  told="$? $told"
  [ "$told" = "$usage" ] || complain "./hx $* ends with '$told'"
}
while read -r -a words; do refused "${words[@]}"; done <cases/words/refused

# On one thread a run is the same each time: so it is seen that the order of options doesn't matter.
script=cases/replay/counted_by_two_sessions.hx
options=('--workers 1' '--lose 3' '--repeat 4' '--seed 18446744073709551615' --trace)
# run_with OPTION..: what a run with these writes
run_with() {
  local words
  read -r -a words <<<"$*"
  hx run "${words[@]}" <"$script"
}
all=$(run_with "${options[@]}")
[[ $all == *$'\nentry 1 '*$'\ndriver 1 '*' lose '[1-9]*' twice '[1-9]*$'\nend' ]] ||
  complain 'a run with all options has no trace, loses nothing or repeats nothing'
for order in {0..4}{0..4}{0..4}{0..4}{0..4}; do
  line=''
  for place in 0 1 2 3 4; do
    [[ ${order:place+1} != *${order:place:1}* ]] || continue 2
    line+=" ${options[${order:place:1}]}"
  done
  [ "$(run_with "$line")" = "$all" ] || complain "hx run$line writes something else"
done
[ "$(run_with "${options[@]/--seed*/--seed 0}")" != "$all" ] || complain 'another seed does nothing'

# Of one call after another it has the trace of the replay, and behind it a line for its driver.
driven() {
  told=$(hx run --workers 1 --trace <"cases/trace/$1.hx")
  [ "$told" = "$(sed "${@:2}" "cases/trace/$1.report")" ] ||
    complain "a run of cases/trace/$1.hx on one thread has another trace"
}
driven put -e '/^end/i driver 1 posts 2 deliver 2 lose 0 twice 0'
driven two_spaces -e '/^space two/i driver 1 posts 4 deliver 4 lose 0 twice 0' \
  -e '/^end/i driver 1 posts 2 deliver 2 lose 0 twice 0'

# What is left out: two threads, nothing lost or repeated, and no trace.
drivers() {
  run_with "$@" | grep -E '^(entry|driver)' | sed -E 's/(posts|deliver) [0-9]+/\1 N/g'
}
driver() {
  printf 'driver %d posts N deliver N lose 0 twice 0\n' "$@"
}
[ "$(drivers '')" = "$(driver 1 2)" ] || complain "a run without options has $(drivers '')"
told=$(drivers '--repeat 0 --lose 0 --workers 16')
[ "$told" = "$(driver {1..16})" ] || complain "a run on 16 threads has $told"
told=$(drivers '--lose 1000000 --repeat 1000000')
[ "$told" = "$(driver 1 2)" ] || complain "a run that loses one of 1,000,000 messages has $told"
consistent 'a share without options' < <(hx share <"$script")
exit "$failed"
