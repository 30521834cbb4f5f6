#!/usr/bin/env bash
# What the program writes of a script, alone: each example and each case, and what no file can say.
. "$(dirname "${BASH_SOURCE[0]}")/../common.sh"
needs "$program"

# Each example has what a command writes of it, and the program writes that.
compare() {
  [ -f "$3" ] || return 1
  hx "$1" <"$2" | cmp -s - "$3" || complain "hx $1 <$2 doesn't write $3"
}
for script in examples/*.hx; do
  told=no
  compare replay "$script" "${script%.hx}.report" && told=yes
  compare plan "$script" "${script%.hx}.plan" && told=yes
  [ "$told" = yes ] || complain "$script has neither report nor plan"
done

# Each case is answered, or refused, as it is told there (cases/README.md).
answered() {
  local folder=$1 ending=$2 script wanted
  shift 2
  for script in cases/"$folder"/*.hx; do
    wanted=${script%.hx}.$ending
    [ -f "$wanted" ] || complain "$script has no answer"
    hx "$@" <"$script" | cmp -s - "$wanted" || complain "hx $* <$script doesn't write $wanted"
  done
}
answered replay report replay
answered trace report replay --trace
answered plan plan plan
answered share report share --workers 1
answered run report run --workers 1
for script in cases/part/*.hx; do
  lines=$(cat "${script%.hx}.lines") || complain "$script has no lines"
  [[ $(hx replay <"$script") == *"$lines"* ]] || complain "hx replay <$script doesn't write ${script%.hx}.lines"
done
# refused SCRIPT LINE WORD..: the words refuse the script with this line
refused() {
  told=$(hx "${@:3}" <"$1" 2>&1)
  status=$?
  [[ $status -eq 3 && $told = "$2" ]] || complain "hx ${*:3} <$1 tells '$told' with $status, and not '$2' with 3"
}
for script in cases/refused/*.hx; do
  line=$(sed -n "s/^${script##*/} //p" cases/refused/lines)
  [ -n "$line" ] || complain "$script has no line"
  refused "$script" "$line" replay
  case $line in *': step') ;; *) refused "$script" "$line" plan ;; esac
done

for script in cases/share_refused/*.hx; do
  line=$(sed -n "s/^${script##*/} //p" cases/share_refused/lines)
  [ -n "$line" ] || complain "$script has no line"
  for workers in 1 3 16; do refused "$script" "$line" share --workers "$workers"; done
done

# One caller's share is the replay of the script without its steps. Scripts of several spaces aren't
# shared.
for script in examples/*.hx cases/replay/*.hx; do
  line=$(grep -n -m 1 '^ *hx 2' "$script") && { refused "$script" "line ${line%%:*}: bounds" share --workers 1; continue; }
  cmp -s <(hx share --workers 1 <"$script") <(sed '/^ *steps *\(#.*\)\?$/,$d' "$script" | hx replay) \
    || complain "hx share --workers 1 <$script writes something else than its replay without steps"
done

# Calls are counted over all spaces, and so are steps.
of_two_spaces() {
  printf 'hx 2\nservers 1\ntolerate 0\nspace one\nkey k 1\nspace two\nkey k 1\nsession 1\n'
  yes $'get one "a"\nget two "a"' | head -n "$1"
  [ "$2" -eq 0 ] || { printf 'steps\n'; yes $'tick one c\ntick two c' | head -n "$2"; }
}
planned() {
  told=$(of_two_spaces "$1" "$2" | hx plan 2>&1)
  status=$?
  [ "$status $told" = "$3" ] || complain "a plan of $1 calls and $2 steps of two spaces ends with $status and '$told'"
}
planned 16384 0 '0 end'
planned 16385 0 '3 line 16393: limit'
planned 0 65536 '0 end'
planned 0 65537 '3 line 65546: limit'

# A put whose leader halts after any number of deliveries is done once, and a get of another session
# finds it.
survives() {
  {
    sed '/^session 1$/,$d' cases/replay/puts_along_chains.hx
    printf 'session 1\nput "a" genre="b" year=1999\nsession 2\nget "a"\nsteps\ntick u1\n'
    for entry in $(seq "$1"); do printf 'deliver %d.0\n' "$entry"; done
    printf 'halt s1\n'
  } | hx replay
}
found=$'-> found version 1 genre="b" year=1999\nhistory "a"\nitem 1 u1.1 done'
for delivered in $(seq 0 12); do
  [[ $(survives "$delivered") == *"$found"* ]] || complain "a put doesn't survive the halt of its leader after $delivered deliveries"
done

# A script may end after each of its lines: before its head is whole the line that is missing is
# refused.
script=$(sed 's/ *#.*//; /^ *$/d' examples/library.hx)
head_lines=$(sed -n '/^session 1/=' <<<"$script")
for lines in $(seq 0 "$(wc -l <<<"$script")"); do
  told=$(head -n "$lines" <<<"$script" | hx replay 2>&1 >/dev/null)
  status=$?
  if [ "$lines" -ge $((head_lines - 1)) ]; then wanted='0 '; else wanted="3 line $((lines + 1)): order"; fi
  [ "$status $told" = "$wanted" ] || complain "the first $lines lines of a script end with $status and '$told'"
done
exit "$failed"
