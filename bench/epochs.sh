#!/usr/bin/env bash
# What it costs that configurations change.
#
#     bench/epochs.sh [PROGRAM]
#
# First it times `hx replay` of puts while a server of four is stopped and replicas are added in its
# place, and of the same puts without that, 4,096 and 16,376 of them over 256 keys in 4 sessions, in
# turns. It prints milliseconds of the processor (the least of seven runs), microseconds for each
# entry, and the ratio of both runs, which stays below 1.2: an epoch costs what it must.
#
# Then it counts the entries from the one that delivers `die` to a server to the end of the first
# call on a key that was held up by that or begins later, among 4, 8 and 16 servers with their
# sessions. Of a PROGRAM compiled without proofs (bench/unproved.py) the ratios and the entries say
# as much.
set -eu
[ $# -eq 0 ] || program=$(realpath "$1")
. "$(dirname "${BASH_SOURCE[0]}")/common.sh"

# script PUTS WORD: so many puts; in the middle of the first session the calls that change the
# configuration, or as many gets where the word is `steady`
script() {
  printf 'hx 1\nspace bench\nkey k 4\nstring color\nint size 0 999\nsubspace color 4\nsubspace size 4\nservers 4\ntolerate 1\n'
  awk -v puts="$1" -v word="$2" 'BEGIN {
    for (i = 0; i < puts; i++) {
      if (i % (puts / 4) == 0) printf "session %d\n", i / (puts / 4) + 1
      if (i == puts / 8) {
        if (word == "steady") for (j = 0; j < 4; j++) print "get \"k1\""
        else printf "stop 2\nadd 3 0\nadd 4 1\nadd 4 5\n"
      }
      printf "put \"k%d\" color=\"c%d\" size=%d\n", (i * 7919) % 256, (i * 31) % 4, (i * 104729) % 1000
    }
  }'
}

# taken WORD: milliseconds of the processor for one run of that script; what it writes goes to
# $work/WORD.report
taken() {
  local TIMEFORMAT='%U %S'
  { time "$program" replay <"$work/$1.hx" >"$work/$1.report"; } 2>&1 | awk '{ printf "%d", 1000 * ($1 + $2) + 0.5 }'
}

# each REPORT MILLISECONDS: microseconds for each entry of the report
each() {
  awk -v t="$2" '$1 == "call" && $6 > last { last = $6 } END { if (last > 0) printf "%.3f", 1000 * t / last; else printf "-" }' "$1"
}

for puts in 4096 16376; do
  declare -A least=()
  for word in steady changing; do script "$puts" "$word" >"$work/$word.hx"; done
  for _ in 1 2 3 4 5 6 7; do
    for word in steady changing; do
      now=$(taken "$word")
      [ "${least[$word]:-$now}" -lt "$now" ] || least[$word]=$now
    done
  done
  steady=$(each "$work/steady.report" "${least[steady]}")
  changing=$(each "$work/changing.report" "${least[changing]}")
  printf '%6d puts: %s ms, %s epochs, %s microseconds an entry, %s times the same without them\n' \
    "$puts" "${least[changing]}" "$(grep -c '^epoch' "$work/changing.report")" "$changing" "$(ratio "$changing" "$steady")"
done

# stopped SERVERS SERVER STEP..: a script in which session 1 stops that server, session 2 puts, and
# half as many sessions as there are servers look on
stopped() {
  local servers=$1 server=$2
  printf 'hx 1\nspace bench\nkey k 1\nstring v\nservers %d\ntolerate 1\nsession 1\nstop %d\nsession 2\nput "a" v="x"\n' "$servers" "$server"
  for session in $(seq 3 $((servers / 2))); do printf 'session %d\n' "$session"; done
  printf 'steps\n'
  printf '%s\n' "${@:3}"
}

# waited: entries from the one that delivers `die` to the end of the first call on a key that ends
# behind it
waited() {
  "$program" replay --trace <"$work/script.hx" | awk '
    $1 == "call" && $7 != "stop" { ends[++calls] = $6 }
    $1 == "post" && $4 == "die" { die = $2 }
    $1 == "entry" && $4 == "deliver" && $5 == die && !halt { halt = $2 }
    END {
      for (i = 1; i <= calls; i++) if (ends[i] > halt && (!first || ends[i] < first)) first = ends[i]
      printf "%d", first - halt
    }'
}

for servers in 4 8 16; do
  # The leader of the put halts when it has passed it on; its acknowledgement finds nobody.
  stopped "$servers" 1 'tick u1' 'deliver 1.0' 'tick u2' 'deliver 3.0' 'deliver 2.0' >"$work/script.hx"
  held=$(waited)
  # Another server halts, and the coordinator hears of that; then the put begins.
  stopped "$servers" "$servers" 'tick u1' 'deliver 1.0' 'deliver 2.0' 'deliver 3.0' 'tick u2' >"$work/script.hx"
  printf '%3d servers: %s entries to the end of a put that its leader had, %s to that of one with other servers\n' \
    "$servers" "$held" "$(waited)"
done
