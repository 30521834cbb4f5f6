#!/usr/bin/env bash
# Words, statuses and faults: with which status the program and ./hx end, and what they tell on
# standard error.
. "$(dirname "${BASH_SOURCE[0]}")/../common.sh"
needs "$program"

# ends STATUS LINE INPUT WORD..: the program ends so where it reads this input
ends() {
  local wanted=$1 line=$2 input=$3
  shift 3
  told=$(printf '%s' "$input" | hx "$@" 2>&1 >/dev/null)
  status=$?
  [[ $status -eq $wanted && $told = "$line" ]] || complain "hx ${*@Q} ends with $status and '$told', and not with $wanted and '$line'"
}
ends 0 '' '' --help
ends 0 '' '' --version
ends 3 'line 2: order' $'hx 1\nkey k 1\n' replay
ends 3 'line 1: order' '' run --workers 2
ends 3 'line 1: order' '' share --workers 16
ends 3 'line 1: order' '' audit
ends 3 'line 1: order' $'hx 1\n' audit
ends 1 'line 14: legal' "$(cat cases/audit/another_object_found.report)"$'\n' audit

# What is no command is refused by the program and by ./hx alike. A copy of ./hx alone has nothing
# that it could build: so it is seen that for such words it doesn't try to, and that for right ones
# it does.
usage='usage: hx replay or run or soak or plan or share or audit'
bare=$(mktemp -d)
trap 'rm -r "$bare"' EXIT
cp hx "$bare/hx"
asked() {
  local wanted=$1
  shift
  told=$("$bare/hx" "$@" 2>&1 </dev/null)
  status=$?
  [[ $status -eq $wanted ]] || complain "./hx ${*@Q} ends with $status and '$told', and not with $wanted"
}
wrong() {
  ends 2 "$usage" '' "$@"
  asked 2 "$@"
  [ "$told" = "$usage" ] || complain "./hx ${*@Q} tells '$told'"
}
wrong
wrong ''
wrong Plan
wrong $'\xff'
wrong replay plan
wrong replay ''
wrong 'replay --trace'
wrong replay --trace --trace
wrong replay $'\xff'
wrong run --workers 0
wrong run --workers 17
wrong run --workers $'1\xff'
wrong run --lose 01
wrong run --lose 1 --lose 1
wrong run --repeat 1000001
wrong run --workers 2 --lose 1 --repeat 1 --trace x
wrong soak 1
wrong soak 1 16385
wrong soak 18446744073709551616 1
wrong share --workers 17
wrong share --workers 2 --workers 2
wrong share --trace
wrong share 1
wrong audit --trace
wrong audit audit
wrong Audit
asked 2 --proved
asked 2 --proved plan 1
asked 1 replay
asked 1 replay --trace
asked 1 plan
asked 1 picture
asked 1 run --workers 16 --lose 1000000
asked 1 run --trace --repeat 0
asked 1 run --workers 2 --lose 1 --repeat 1 --trace
asked 1 soak 18446744073709551615 16384 --workers 1
asked 1 share
asked 1 share --workers 16
asked 1 audit
asked 1 --proved plan

# ./hx prints these texts itself, as the program does, and answers by the program where that is
# proved.
cmp -s <(./hx --version) <(hx --version) || complain './hx --version has another text'
[[ $(./hx --help) == "$(hx --help)"* ]] || complain './hx --help has another text'
told=$(./hx replay <examples/first.hx 2>&1)
[ "$told" = "$(cat examples/first.report)" ] || complain "./hx doesn't answer by the proved program, and tells '${told%%$'\n'*}'"

# Faults of the standard streams, and a text that is too large.
told=$(head -c 16777217 /dev/zero | tr '\0' '#' | hx plan 2>&1)
[ "$? $told" = '3 too large' ] || complain "a text of 16,777,217 bytes isn't told to be too large"
told=$(head -c 16777217 /dev/zero | tr '\0' '#' | hx audit 2>&1)
[ "$? $told" = '3 too large' ] || complain "a report of 16,777,217 bytes isn't told to be too large"
told=$(hx replay 2>&1 <.)
[ "$? $told" = '4 read fault' ] || complain "a fault of reading isn't told"
told=$(hx replay <examples/first.hx 2>&1 >/dev/full)
[ "$? $told" = '5 write fault' ] || complain "a fault of writing isn't told"
told=$(hx audit 2>&1 <.)
[ "$? $told" = '4 read fault' ] || complain "a fault of reading a report isn't told"
told=$(hx audit <examples/first.report 2>&1 >/dev/full)
[ "$? $told" = '5 write fault' ] || complain "a fault of writing an audit isn't told"
exit "$failed"
