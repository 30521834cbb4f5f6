#!/usr/bin/env bash
# An actor may make 1,048,576 entries: the run or replay in which it has one more to make ends so.
. "$(dirname "${BASH_SOURCE[0]}")/../common.sh"
needs "$program"

# ends STATUS LINE WORD..: the program ends so on the script of standard input, and writes nothing
# where it tells a line
ends() {
  local wanted=$1 line=$2 status
  shift 2
  told=$(hx "$@" 2>&1)
  status=$?
  [ "$status" -ne 0 ] || told=${told##*$'\n'}
  [ "$status $told" = "$wanted $line" ] \
    || complain "hx $* ends with $status and '$told', and not with $wanted and '$line'"
}

# searches SESSIONS SEARCHES GETS: each session searches so often, and the last one then gets. A
# search of all 256 regions takes 257 entries of its session and 256 of the only server; a get takes
# two of its session and one of the server.
searches() {
  printf 'hx 1\nspace w\nkey k 256\nservers 1\ntolerate 0\n'
  for session in $(seq "$1"); do
    printf 'session %d\n' "$session"
    yes search | head -n "$2"
  done
  yes 'get "a"' | head -n "$3"
}
ends 0 end replay < <(searches 1 4080 8)
ends 7 'worn u1' replay < <(searches 1 4080 9)
ends 7 'worn s1' replay < <(searches 2 2048 1)

# A session whose messages are lost asks again until it is worn. Where every second one is lost, the
# calls of two sessions are always lost and their questions for a configuration never, so that the
# coordinator has more entries than either.
gets() {
  printf 'hx 1\nspace one\nkey k 1\nstring v\nservers 1\ntolerate 0\n'
  for session in $(seq "$1"); do printf 'session %d\nget "a"\n' "$session"; done
}
ends 7 'worn u1' run --workers 1 --lose 1 < <(gets 1)
ends 7 'worn c' run --workers 1 --lose 2 < <(gets 3)
exit "$failed"
