# What the benchmarks share: the proved program, a folder for their files, and how a run is timed.
# Each benchmark reads this file first; one that is told of another program sets `program` before.
top=$(cd "$(dirname "${BASH_SOURCE[0]}")/.." && pwd)
work=$(mktemp -d)
trap 'rm -rf "$work"' EXIT
if [ -z "${program:-}" ]; then
  "$top/hx" prove || exit 1
  program=$top/crates/hx_tool/out/hx_tool
fi

# seconds COMMAND FILE: the best of three runs of the command on the file; what the last one wrote
# is in $work/written
seconds() {
  local best='' taken
  for _ in 1 2 3; do
    taken=$( { /usr/bin/env bash -c 'TIMEFORMAT=%R; time "$0" "$1" <"$2" >"$3"' "$program" "$1" "$2" "$work/written"; } 2>&1 )
    if [ -z "$best" ] || awk -v a="$taken" -v b="$best" 'BEGIN { exit !(a < b) }'; then best=$taken; fi
  done
  printf '%s' "$best"
}

# ratio NOW BEFORE: how many times as long
ratio() {
  awk -v a="$1" -v b="$2" 'BEGIN { if (b > 0) printf "%.2f", a / b; else printf "-" }'
}
