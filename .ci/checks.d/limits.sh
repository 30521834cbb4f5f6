#!/usr/bin/env bash
# What a store that is shared takes: as many calls as a script may have, and as many searches of 256
# regions as a session has entries for, each with its begin and 256 answers.
. "$(dirname "${BASH_SOURCE[0]}")/../common.sh"
needs "$program"

# shared PARTS CALLS CALL: what a store writes, or tells, whose key is cut into so many parts, and
# of which one session makes a call so often
shared() {
  {
    printf 'hx 1\nspace one\nkey k %d\nservers 1\ntolerate 0\nsession 1\n' "$1"
    yes "$3" | head -n "$2"
  } | hx share --workers 1 2>&1
}
answered=$(shared 1 16384 'get "a"' | grep -c '^call u1\..* -> notfound version 0$')
[ "$answered" -eq 16384 ] || complain "of 16,384 shared calls $answered are answered"
answered=$(shared 256 4080 search | grep -c '^call u1\..* -> rows 0$')
[ "$answered" -eq 4080 ] || complain "of 4,080 shared searches $answered are answered"
told=$(shared 256 4081 search)
[ "$? $told" = '7 worn u1' ] || complain "4,081 shared searches end with '$told'"
exit "$failed"
