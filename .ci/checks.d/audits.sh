#!/usr/bin/env bash
# What the program says of reports: of each case, and of every report that stands here or that it
# writes of a script alone.
. "$(dirname "${BASH_SOURCE[0]}")/../common.sh"
needs "$program"

errors=$(mktemp)
trap 'rm "$errors"' EXIT
judged() {
  local folder=$1 report wanted told status
  for report in cases/"$folder"/*.report; do
    wanted=$(sed -n "s/^${report##*/} //p" cases/"$folder"/lines)
    [ -n "$wanted" ] || complain "$report has no line"
    told=$(hx audit <"$report" 2>"$errors")
    status=$?
    if [ "$status" -eq 0 ]; then told="$told$(cat "$errors")"; else told="$(cat "$errors")$told"; fi
    [ "$status $told" = "$wanted" ] || complain "hx audit <$report tells '$told' with $status, and not '$wanted'"
  done
}
judged audit
judged audit_spaces

for report in examples/*.report cases/{replay,trace,share,run}/*.report; do consistent "$report" <"$report"; done
for script in cases/part/*.hx; do consistent "the replay of $script" < <(hx replay <"$script"); done

# Histories of another store, as its report has them.
converted() {
  local told
  told=$(python3 examples/audit/convert.py "examples/audit/$1.edn" | hx audit 2>&1)
  [ "$? $told" = "$2" ] || complain "the audit of examples/audit/$1.edn tells '$told', and not '$2'"
}
converted register '0 audit yes'
converted stale_read '1 line 19: order'
exit "$failed"
