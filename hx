#!/usr/bin/env bash
# hx: runs the store with these words on standard input and output. Until `hx prove` has proved this
# checkout, the answer comes from the same sources compiled without their proofs
# (tools/unproved.sh), and a line says so. `hx --proved WORD..` proves first; `hx picture` draws the
# replay of a script (SVG).
set -u
top=$(cd "$(dirname "${BASH_SOURCE[0]}")" && pwd)
kept=$top/out
[ -w "$top" ] || kept=${XDG_CACHE_HOME:-${HOME-}/.cache}/hx$top
declare -A program=()

say() { printf 'hx: %s\n' "$*" >&2; }

# stop STATUS: ends what works side by side, and the script
stop() {
  for job in $(jobs -p); do kill "$job" 2>/dev/null; done
  exit "$1"
}

# failed WHAT LOG: tells in one line what was not done and why, and where the log is
failed() {
  local reason='error(\[|:)|refused|not proved|NOT PROVED|no proof|failed:|No space|not found'
  say "$1: $(grep -m1 -E "$reason" "$2" || tail -n 1 "$2"); the log is $2"
  stop 1
}

# is_command WORD..: whether the words are a command, so that wrong ones never start a build
is_command() {
  local LC_ALL=C word twice='(--[a-z]+) .*\1' seed='(0|[1-9][0-9]{0,19})' workers='--workers ([1-9]|1[0-6])'
  local period='--(lose|repeat) (0|[1-9][0-9]{0,5}|1000000)'
  local calls='([1-9][0-9]{0,3}|1[0-5][0-9]{3}|16[0-2][0-9]{2}|163[0-7][0-9]|1638[0-4])'
  local of_run="$workers|$period|--seed $seed|--trace"
  for word in "$@"; do
    # shellcheck disable=SC2071 # of two numbers of 20 digits the greater is the later text
    [[ $word != *[[:space:]]* && (${#word} -lt 20 || ! $word > 18446744073709551615) ]] || return 1
  done
  [[ $* =~ ^(replay( --trace)?|plan|picture|run( ($of_run))*|soak $seed $calls( $workers)?|share( $workers)?|audit)$ && ! $* =~ $twice ]]
}

# is_fresh PROGRAM ENDING..: whether the program is there and no source with such an ending is newer
is_fresh() {
  local endings=(-name crates.txt) ending
  for ending in "${@:2}"; do endings+=(-o -name "*.$ending"); done
  [ -x "$1" ] && [ -z "$(find "$top/crates.txt" "$top/crates" \( -name out -o -name 'hx_*tests' \) -prune \
    -o \( "${endings[@]}" \) -newer "$1" -print -quit)" ]
}

# locked NAME: waits until no other call is at this work
locked() {
  command -v rt >/dev/null || { say 'the Rattle toolchain (rt) is not on the path'; exit 1; }
  if ! mkdir -p "$kept" 2>/dev/null || ! exec 9>"$kept/$1.lock"; then say "nothing can be kept in $kept"; exit 1; fi
  flock -n 9 || { say 'another call is at it: waiting'; flock 9; }
}

# are_proved CRATE..: whether the proved program of each is there; if so these answer
are_proved() {
  local crate
  for crate in "$@"; do
    program[$crate]=$top/crates/$crate/out/$crate
    is_fresh "${program[$crate]}" rt antt || return 1
  done
}

# compile CRATE..: compiles those of the programs that aren't kept, side by side; these answer
compile() {
  local crate
  local -A jobs=()
  for crate in "$@"; do
    program[$crate]=$kept/$crate
    is_fresh "$kept/$crate" rt && continue
    [ "${#jobs[@]}" -gt 0 ] || locked compile
    is_fresh "$kept/$crate" rt && continue
    say "compiling $crate, once: about a minute"
    "$top/tools/unproved.sh" "$crate" "$kept/$crate" >"$kept/$crate.log" 2>&1 &
    jobs[$crate]=$!
  done
  for crate in "${!jobs[@]}"; do
    wait "${jobs[$crate]}"
    case $? in 0) ;; 3) program[$crate]='' ;; *) failed 'not compiled' "$kept/$crate.log" ;; esac
  done
  exec 9>&-
}

# prove: proves all crates but those of tests and builds both programs, where that isn't done
prove() {
  are_proved hx_tool hx_picture && return
  locked prove
  are_proved hx_tool hx_picture && return
  say 'proving the crates; from nothing this takes half an hour to an hour'
  "$top/tools/prove.sh" "$kept/prove.log" || failed 'not proved' "$kept/prove.log"
}

# answer CRATE WORD..: ends as the crate's program does with these words
answer() {
  [ -z "${program[$1]}" ] || exec "${program[$1]}" "${@:2}"
  say "tools/unproved.sh doesn't fit this kit: rt try answers, in about a minute and each time anew"
  { (cd "$top/crates/$1" && rt try -- "${@:2}" 2>&1 >&3) | grep -vE '^(checked: ended|races:|run=ended)' >&2; } 3>&1
  exit "${PIPESTATUS[0]}"
}

trap 'stop 130' INT
trap 'stop 143' TERM
texts=$top/crates/hx_command/src/program.rt insists=no
if [ "${1-}" = --proved ]; then shift; insists=yes; fi
case "$*" in
  --version) sed -n 's/^const VERSION: .*b"\(.*\)\\n";$/\1/p' "$texts"; exit ;;
  --help)
    sed -n '/^const HELP: /,/^";$/ { s/^const HELP: .*b"//; /^";$/! p }' "$texts"
    printf '\nOf ./hx alone: picture draws a script (SVG), prove proves the program, --proved as first word insists on it.\n'
    printf 'Scripts to try stand in examples/.\n'
    exit
    ;;
  prove) prove && say 'proved'; exit ;;
esac
is_command "$@" || { printf 'usage: hx replay or run or soak or plan or share or audit\n' >&2; exit 2; }
crates=(hx_tool)
[ "$1" != picture ] || crates+=(hx_picture)
if ! are_proved "${crates[@]}"; then
  if [ "$insists" = yes ]; then
    prove
    are_proved "${crates[@]}" || { say 'the sources have changed since they were proved'; exit 1; }
  else
    compile "${crates[@]}"
    say 'not proved on this machine yet; ./hx prove proves it'
  fi
fi
[ "$1" = picture ] || answer hx_tool "$@"
trace=$(mktemp) || exit 1
exec 6>"$trace"
exec 7<"$trace"
rm "$trace"
(answer hx_tool replay --trace) >&6 && answer hx_picture <&7
