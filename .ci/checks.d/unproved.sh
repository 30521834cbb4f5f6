#!/usr/bin/env bash
# The program can be compiled without its proofs, as ./hx does before anything is proved, and
# answers.
. "$(dirname "${BASH_SOURCE[0]}")/../common.sh"
made=$(mktemp -d)
trap 'rm -r "$made"' EXIT
if ! timeout 600 tools/unproved.sh hx_tool "$made/hx_tool" >"$made/log" 2>&1; then
  complain "tools/unproved.sh doesn't compile the program:"
  tail -n 5 "$made/log"
elif ! timeout 60 "$made/hx_tool" replay <examples/library.hx | cmp -s - examples/library.report; then
  complain 'the program that is compiled without proofs has another answer'
fi
exit "$failed"
