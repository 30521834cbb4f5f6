#!/usr/bin/env bash
# tools/prove.sh LOG: proves all crates but those of tests, as many side by side as the toolchain
# finds memory for, and builds both programs. A line on standard error tells of each crate; the log
# has all that was said.
#
# It is the gate (`rt ci`) of a copy without tests and wrong bodies, which goes when it ends. Where
# the toolchain may write beside itself it keeps each proof: a call after one that was stopped goes
# on from there, the gate takes what this proved, and this takes what the gate did.
set -euo pipefail
log=$1
cd "$(dirname "${BASH_SOURCE[0]}")/.."
top=$PWD
started=$(mktemp)
copy=$(mktemp -d)
trap 'rm -rf "$started" "$copy"' EXIT
tar -c --exclude=out --exclude=must-fail --exclude='hx_*tests' crates HANDLES | tar -x -C "$copy"
grep -v '^hx_.*tests' crates.txt >"$copy/crates.txt"

count=$(grep -c '^[a-z]' "$copy/crates.txt")
: >"$log"
done=0
cd "$copy"
rt ci 2>&1 | tee -a "$log" | while IFS= read -r line; do
  case $line in
    'rt: hx_'*' proved' | 'rt: hx_'*' is kept: '*)
      crate=${line#rt: }
      printf 'hx: %d of %d crates: %s (%d min)\n' $((++done)) "$count" "${crate%% *}" $((SECONDS / 60)) >&2
      ;;
  esac
done

# A program is as old as the begin of its proof: what changes meanwhile is newer.
for crate in hx_tool hx_picture; do
  made=crates/$crate/out/$crate
  mkdir -p "$top/crates/$crate/out"
  cp "$made" "$top/$made.new"
  touch -r "$started" "$top/$made.new"
  mv "$top/$made.new" "$top/$made"
done
