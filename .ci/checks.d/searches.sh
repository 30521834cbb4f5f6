#!/usr/bin/env bash
# Which regions a search asks: those of the widest space, and those that are left once servers are
# taken out.
. "$(dirname "${BASH_SOURCE[0]}")/../common.sh"
needs "$program"

# planned SUBSPACE REGIONS TERMS: a search of a space of 4,096 regions asks these of this subspace
planned() {
  told=$(printf '%s\n' 'hx 1' 'space wide' 'key k 256' 'string g' 'int y 1900 2099' \
    'subspace g 16, y 240' 'servers 1' 'tolerate 0' 'session 1' "search $3" | hx plan)
  [ "$told" = "plan u1.1 subspace $1 regions $2"$'\nend' ] || complain "'$3' is planned as '$told'"
}
# The last year has one cell of 240, for each of the 16 of the other axis.
planned 1 "$(seq -s , 494 240 4094)" 'y=2099..3000'
planned 1 "$(seq -s , 2656 2895)" 'g="b"'
planned 1 2894 'g="b" y=2099'
planned 0 49 'k="a" y=2099'
planned 0 "$(seq -s , 0 255)" ''

# asked SERVERS WANTED TERMS: once these servers of four are taken out, a search asks these regions,
# or is answered so
asked() {
  told=$({
    sed '/^session 1$/,$d' cases/replay/puts_along_chains.hx
    printf 'session 1\n'
    for server in $1; do printf 'stop %d\n' "$server"; done
    printf 'search %s\n' "$3"
  } | hx replay --trace |
    sed -n 's/^post .* ask .* region //p; s/^call .* search .*-> refused/refused/p' | paste -sd ' ')
  [ "$told" = "$2" ] || complain "'$3' asks '$told' without the servers $1, and not '$2'"
}
asked '' '6 7' 'year=1990..2010'
asked '3' '6' 'year=1999'
asked '3 4' '0 1' 'year=1999'
asked '1 2 3' '6 7' 'genre="b"'
asked '2 3 4' 'refused region 1 epoch 4' ''
exit "$failed"
