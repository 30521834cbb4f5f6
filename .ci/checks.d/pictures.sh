#!/usr/bin/env bash
# What the program that draws makes of a replay.
. "$(dirname "${BASH_SOURCE[0]}")/../common.sh"
needs "$program" "$picture"

# drawn SCRIPT: its picture
drawn() {
  hx replay --trace <"$1" | timeout 60 "$picture"
}

# Each example with entries has its picture.
for script in examples/*.hx; do
  [ "$script" != examples/empty.hx ] || continue
  [ -f "${script%.hx}.svg" ] || complain "$script has no picture"
  drawn "$script" | cmp -s - "${script%.hx}.svg" || complain "${script%.hx}.svg is not the picture of $script"
done

# The picture of each case has these lines.
for script in cases/picture/*.hx; do
  [ -s "${script%.hx}.lines" ] || complain "$script has no lines"
  lines=$(drawn "$script")
  while IFS= read -r line; do
    grep -qxF -e "$line" <<<"$lines" || complain "the picture of $script has no line $line"
  done <"${script%.hx}.lines"
done

# What is no report with entries, or has more of them than anybody can read, isn't drawn.
draws() {
  told=$(timeout 60 "$picture" <<<"$3" 2>&1 >/dev/null)
  status=$?
  [[ $status -eq $1 && $told = "$2" ]] || complain "hx picture ends with $status and '$told', and not with $1 and '$2'"
}
report() {
  printf 'report 1\nspace one\n'
  for entry in $(seq "$1"); do printf 'entry %d u1 tick\n' "$entry"; done
  printf 'end'
}
draws 3 'line 1: no line of a report' 'hx 1'
draws 3 'line 2: no line of a report' $'report 1\nentry 1 u1'
draws 3 'no entries: write the report with hx replay --trace' "$(report 0)"
draws 0 '' "$(report 600)"
draws 3 '601 entries: a picture has at most 600' "$(report 601)"
exit "$failed"
