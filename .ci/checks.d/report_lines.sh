#!/usr/bin/env bash
# Which lines of a report are read, and at which line a text is no report.
. "$(dirname "${BASH_SOURCE[0]}")/../common.sh"
needs "$program"

# A report with lines of each kind, but for those of a trace. The item of line 18 has a caller whose
# call is on another key: so where every line is read that line is told as `foreign`.
lines=(
  'report 1'
  'space books'
  'key name 2'
  'string genre'
  'int year 1900 2099'
  'subspace genre 4'
  'servers 4'
  'tolerate 1'
  'call u1.1 begin 1 end 13 put "a -> b" genre="\"\n" year=-5 -> done version 1'
  'call u1.2 begin 14 end 16 get "a -> b" -> found version 1 genre="\"\n" year=-5'
  'call u1.3 begin 17 end 20 search year=1900..1999 -> rows 2'
  'row "c" version 1 genre="-> " year=1950'
  'row "d e" version 18446744073709551615 genre="" year=1951'
  'call u2.1 begin 3 end - atomic "a" add year=1 -> doubt region 5 epoch 2'
  'call u2.2 begin 30 end - del "a" -> open'
  'call u10.1 begin 2 end 4 stop 2 -> stopped epoch 1'
  'history ""'
  'item 1 u2.2 notfound absent'
  'history "a -> b"'
  'item 1 u1.1 overflow present genre="\"\n" year=-5'
  'epoch 1 servers 1,2,3,4 lost -'
  'epoch 4 servers - lost 5,0,5'
  'driver 2 posts 5 deliver 3 lose 2 twice 0'
  'end'
)

# ends WANTED WHAT <TEXT: the audit of the text ends so
ends() {
  told=$(hx audit 2>&1)
  told="$? $told"
  [ "$told" = "$1" ] || complain "the audit of a report with $2 ends with '$told', and not '$1'"
}

# with NUMBER OTHER: the lines, with another one in the place of that number
with() {
  local changed=("${lines[@]}")
  changed[$1 - 1]=$2
  printf '%s\n' "${changed[@]}"
}
read_with() {
  ends '1 line 18: foreign' "$2" < <(with "$@")
}
# refused NUMBER OTHER..: each of these is refused at its line
refused() {
  local other
  for other in "${@:2}"; do ends "3 line $1: order" "$other" < <(with "$1" "$other"); done
}
# refused_later LINE NUMBER OTHER: the lines are refused at that line, behind the other one
refused_later() {
  ends "3 line $1: order" "$3" < <(with "$2" "$3")
}

ends '1 line 18: foreign' 'lines of each kind' < <(printf '%s\n' "${lines[@]}")

# Lines of the trace stand behind those of epochs, and before those of drivers.
read_with 23 'entry 1 u1 tick'
read_with 22 'post 1.0 s1 call epoch 1 number 1'
refused_later 22 21 'post 1.0 s1 call epoch 1 number 1'

# Numbers.
refused 9 'call u1.1 begin 01 end 13 put "a" -> done version 1'
refused 9 'call u0.1 begin 1 end 13 get "a" -> notfound version 0'
refused 13 'row "d" version 18446744073709551616 genre="" year=1'
refused 22 'epoch 4 servers 1,1 lost -' 'epoch 4 servers 5 lost -'
refused 22 'epoch 1 servers 1 lost -' 'epoch 4 servers 1 lost 6'

# Values and answers.
refused 20 'item 1 u1.1 done present genre="x" year="y"' 'item 1 u1.1 done present year=1 genre="x"'
refused 20 'item 1 u1.1 done present genre="x"' 'item 1 u1.1 done absent '
refused 20 'item 1 u1.1 refused absent'
refused 14 'call u2.1 begin 3 end 4 get "a" -> doubt region 0 epoch 2'
refused 15 'call u2.2 begin 3 end - get "a" -> notfound version 0'

# The order of lines.
refused 10 'call u1.1 begin 14 end 16 get "a" -> notfound version 0'
refused 13 'call u1.4 begin 1 end - get "a" -> open'
refused_later 13 11 'call u1.3 begin 17 end 20 search -> rows 1'
refused 17 'item 1 u2.2 notfound absent'
refused 18 'history "a"'
refused 19 'history ""'
refused 21 'call u11.1 begin 1 end - get "a" -> open'
refused 24 'row "a" version 1 genre="" year=1'

# The lines of the space.
refused 1 'report 3'
refused 2 'space  books'
refused 3 'servers 4'
refused 4 'string genre # a comment'
refused 6 'subspace color 4'
refused 7 'servers 17'
refused 8 'tolerate 4'

# A text that breaks off is refused at the line after its last, and bytes that begin no line at
# their own.
cut() {
  local text
  printf -v text '%s\n' "${lines[@]:0:$2}"
  ends "3 line $1: order" "$2 lines and then '$3'" < <(printf '%s' "$text$3")
}
for count in 5 12 17; do cut $((count + 1)) "$count" ''; done
cut 25 23 end
cut 24 23 en
cut 25 24 $'\n'
ends '3 line 1: order' 'no lines' </dev/null

# Several spaces, in version 2 alone.
lines=(
  'report 2'
  'space a'
  'key k 1'
  'servers 1'
  'tolerate 0'
  'space b'
  'key k 1'
  'servers 1'
  'tolerate 0'
  'epoch 1 servers 1 lost -'
  'end'
)
ends '0 audit yes' 'two spaces' < <(printf '%s\n' "${lines[@]}")
refused_later 6 1 'report 1'
refused_later 12 11 'space c'
exit "$failed"
