#!/usr/bin/env bash
# What stands in the tree itself.
. "$(dirname "${BASH_SOURCE[0]}")/../common.sh"

[ "$(cat HANDLES)" = 'Handles allowed: Threads, Wait.' ] || complain 'HANDLES has another line'

# The program's own run in the gate is the day of a library.
cmp -s examples/library.hx crates/hx_tool/stdin || complain 'crates/hx_tool/stdin is not examples/library.hx'
cmp -s examples/library.report crates/hx_tool/stdout || complain 'crates/hx_tool/stdout is not examples/library.report'

# No hole stands in a proof, and no code is unfinished.
git grep -nE '(^|[ (=])\?($|[ ),;])' -- '*.antt' | grep -v -- '--' && complain 'a hole in a proof'
git grep -nE '#\[ignore|todo!|unimplemented!' -- '*.rt' && complain 'unfinished code'

# Definitions and proofs stay readable side by side.
python3 tools/wrap.py --check || complain 'a line of more than 160 columns: tools/wrap.py breaks it'

# Of another crate's proofs only that is cited which its proofs/Lemmas.antt passes on.
git grep -nE 'use Rattle\.hx_[a-z_0-9]+\.proofs\.' -- '*.antt' |
  sed -nE 's|^crates/([a-z_0-9]+)/([^:]*:[0-9]+):.*use Rattle\.(hx_[a-z_0-9]+)\.proofs\.([A-Za-z_+]+).*|\1 \3 \4 \2|p' |
  awk '$1 != $2 && $3 != "Lemmas" { print $1 "/" $4 ": cites a lemma of " $2 " past its Lemmas"; bad = 1 } END { exit !bad }' &&
  complain 'a lemma of another crate is cited past its proofs/Lemmas.antt'
exit "$failed"
