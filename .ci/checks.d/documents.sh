#!/usr/bin/env bash
# What the documents say of the tree (docs/READING.md has a check of its own).
. "$(dirname "${BASH_SOURCE[0]}")/../common.sh"

# Each crate has its row in docs/GATE.md and its name in docs/PROMISES.md and docs/ARCHITECTURE.md.
while read -r name; do
  for page in docs/PROMISES.md docs/ARCHITECTURE.md docs/GATE.md; do
    grep -qw "$name" "$page" || complain "the crate $name is not in $page"
  done
done < <(sed -n 's/^\([a-z_0-9]*\)[ :].*/\1/p' crates.txt)
exit "$failed"
