#!/usr/bin/env bash
# Which lines of a script are read, and for what reason others are refused. `hx plan` reads steps
# and takes none.
. "$(dirname "${BASH_SOURCE[0]}")/../common.sh"
needs "$program"

# ends STATUS TOLD LINES: a plan of the lines behind the head ends so
ends() {
  told=$(printf '%s%s' "$head" "$3" | hx plan 2>&1 >/dev/null)
  status=$?
  [ "$status $told" = "$1 $2" ] && return
  local lines=${3:0:60}
  complain "a plan of ${head@Q} and then ${lines@Q} ends with $status and '$told', and not '$2'"
}

# refused NUMBER REASON LINES..: the line of that number is, for that reason, behind the head
refused() {
  local lines
  for lines in "${@:3}"; do ends 3 "line $1: $2" "$lines"; done
}

# taken LINES..: each of these is read behind the head
taken() {
  local lines
  for lines in "$@"; do ends 0 '' "$lines"; done
}

# repeated COUNT TEXT: the text so often
repeated() {
  yes "$2" | head -n "$1" | tr -d '\n'
}

# The first lines.
long_name=abcdefghijklmnopqrstuvwxyzabcdefg
head=''
refused 1 order ''
refused 1 bounds 'hx 3'
refused 3 order $'hx 01\r\nspace b\n'
refused 4 order $'hx 1\n\n# note\nspace if'
refused 2 order $'hx 1\nspace "b"'
refused 3 bounds $'hx 1\nspace b\nkey k 257'
refused 2 limit $'hx 1\nspace '"$long_name"
refused 4 twice $'hx 1\nspace k\nkey k 1\nstring k'
refused 4 bounds $'hx 1\nspace k\nkey k 1\nint v 2 1'
refused 2 token $'hx 1\n# \xff'

# Behind one attribute.
head=$'hx 1\nspace b\nkey k 1\nstring v\n'
refused 5 order 'hx 1' string 'string if' 'string w 1' 'int w 0' servers 'tolerate 0'
refused 5 twice 'string k' 'int v 2 1'
refused 5 limit "string $long_name"
refused 5 bounds 'int w 2 1' 'servers 0' 'servers 17 1'
refused 5 unknown 'subspace w 0'

# Subspaces, of 256 regions of the key and at most 4,096 in all.
head=$'hx 1\nspace b\nkey k 256\nint a 0 9\nint b 0 9\nint c 0 9\nint d 0 9\nint e 0 9\n'
refused 9 unknown 'subspace k 1'
refused 9 order subspace 'subspace a 1, b 1,' 'subspace a 1 b 1'
refused 9 twice 'subspace a 1, a 1'
refused 9 bounds 'subspace a 0'
refused 9 limit 'subspace a 1, b 1, c 1, d 1, e' 'subspace a 256, b 16, c "x"'
refused 10 order 'subspace a 256, b 15'
refused 10 limit $'subspace a 256, b 15\nsubspace c 1'
eight=$(yes 'subspace a 1' | head -n 8)
refused 17 limit "$eight"$'\nsubspace x 9999'

books=$'hx 1\nspace books\nkey name 2\nstring genre\nint year 1900 2099\n'
books+=$'subspace genre 4\nsubspace year 2\nservers 4\n'
head=$books
refused 9 bounds 'tolerate 4'
refused 9 order 'servers 4' ''
taken 'tolerate 3'

# Calls: 4 servers, and regions 0 to 7.
head=$books$'tolerate 1\nsession 1\n'
refused 11 order get 'get a' 'del a' 'del "a" "b"' 'put "a" year' 'gets "a"' 'get "a" get "a"'
refused 11 order 'cput "a" if set year=1' 'cput "a" if year=1' 'cput "a" if year=1 set'
refused 11 order 'cput "a" if year=1 set year=2 set' 'search name="a".."b"' 'search year=1..'
refused 11 order stop 'add 1' 'add 4 7 1' session 'tick c' '"a"'
refused 11 unknown 'put "a" colour="b"' 'put "a" name="b"' 'search colour=1'
refused 11 unknown 'cput "a" if name="a" set year=1'
refused 11 twice 'put "a" genre="b" genre="d"' 'put "a" genre="b" genre=1'
refused 11 twice 'search name="a" name="b"' 'cput "a" if year=1 set year=2 year=3'
refused 11 type 'put "a" year="x"' 'put "a" genre=1' 'cput "a" if genre=1 set year=2'
refused 11 type 'search genre=1..2' 'search name=1' 'search year="a"'
refused 11 bounds 'search year=2010..1990' 'add 5 0' 'add 4 8' 'add 1 -1' 'stop 0' 'stop 5'
refused 11 bounds 'session 3'
taken 'add 4 7' 'cput "a" if year=1 set year=2'
taken $'\tsearch\tyear=-9223372036854775808..9223372036854775807\t# ä\x01\r'

# Edits.
refused 11 order atomic 'atomic a add year=1' 'atomic add year=1' 'atomic "a"' 'atomic "a" year=1'
refused 11 order 'atomic "a" mul year=2' 'atomic "a" add' 'atomic "a" add if=1'
refused 11 order 'atomic "a" add year 1' 'atomic "a" add year=' 'atomic "a" add year=1..2'
refused 11 order 'atomic "a" add year=1 genre="b"'
refused 11 unknown 'atomic "a" add colour="b"' 'atomic "a" append name="b"'
refused 11 twice 'atomic "a" add year=1 min year="x"'
refused 11 type 'atomic "a" add year="b"' 'atomic "a" add genre=1' 'atomic "a" add genre="b"'
refused 11 type 'atomic "a" min genre="b"' 'atomic "a" max genre="b"'
refused 11 type 'atomic "a" append year="b"' 'atomic "a" append year=1'
taken 'atomic "a" min year=-5 append genre=""'

# Tokens.
refused 11 token 'get "a' $'get "a\x01"' 'get "a\r"' 'get "\x"'
refused 11 token $'get "a\\' 'get "a" $' 'get "a" B'
refused 11 token 'get "a" ä' 'search year=9223372036854775808' 'search year=-9223372036854775809'
refused 11 token 'put "a" colour=-' $'get \x01"a"' $'get \r"a"' 'stop 9223372036854775808'
taken 'get "\"\\\n\tä"' 'put "a\"b" year=-7 # note'

# Steps.
head=$books$'tolerate 1\nsteps\n'
refused 11 bounds 'deliver -1.0' 'deliver 1.4294967296' 'tick s0' 'tick s5' 'tick u1'
refused 11 bounds 'halt s99999999999999999999999'
refused 11 order 'deliver 1..0' 'halt s01' 'halt s' 'halt s1x' 'halt c1' steps
refused 12 order $'halt c\nget "a"'
taken 'deliver 1 . 4294967295'

# Texts of 1,024 bytes at most, and one byte more.
head=$books$'tolerate 1\nsession 1\n'
text=$(repeated 1024 x)
taken "put \"$text\"" "atomic \"a\" append genre=\"$text\""
refused 11 limit "put \"${text}y\"" "atomic \"a\" append genre=\"${text}y\""
refused 11 type "put \"a\" year=\"${text}y\"" "atomic \"a\" add year=\"${text}y\""

# Counts that are full.
calls=$(yes 'get ""' | head -n 16384)
taken "$calls"
refused 16395 limit "$calls"$'\nget 1'
head=$books$'tolerate 1\nsteps\n'
steps=$(yes 'tick c' | head -n 65536)
taken "$steps"
refused 65547 limit "$steps"$'\ntick 1'
head=$books$'tolerate 1\n'
sessions=$(printf 'session %d\n' {1..16})
taken "$sessions"
refused 26 limit "$sessions"$'\nsession 99'
head=$'hx 1\nspace b\nkey k 1\n'
attributes=$(printf 'int a%d 0 9\n' {1..16})
taken "$attributes"$'\nservers 1\ntolerate 0'
refused 20 limit "$attributes"$'\nint a1 "x"'

# Several spaces: the first lines. What isn't of version 2 is read as a script of one space.
head=''
refused 1 order 'hx 2 1'
refused 3 order $'\n# note'
refused 2 order $'hx 1\nservers 1\n' 'hx 2' $'hx 2\nspace one\n'
refused 4 order $'\n # 2\nhx 1\n'
refused 2 token $'hx 2\n"'
head=$'hx 2\nservers 2\n'
refused 3 bounds 'tolerate 2'
head=$'hx 2\nservers 1\ntolerate 0\n'
refused 4 order '' 'space set'
refused 4 limit "space $long_name"
refused 5 order $'space one\nstring v' $'space one\nsession 1'
refused 7 order $'space one\nkey k 1\nspace two\n'
refused 7 twice $'space one\nkey k 1\nstring v\nspace one\nkey k 1'

# Each space has regions of its own: at most 4,096, here of 256 parts of the key.
head=$'hx 2\nservers 2\ntolerate 0\nspace one\nkey k 256\nspace two\nkey k 256\n'
head+=$'string v\nstring w\n'
refused 10 limit 'subspace v 240, w 17'
head=$'hx 2\nservers 2\ntolerate 0\nspace one\nkey k 4\nspace two\nkey k 2\nsession 1\n'
refused 10 bounds $'add one 1 3\nadd two 1 2'

# There is no room for a ninth space, whatever its name.
head=$'hx 2\nservers 1\ntolerate 0\n'$(printf 'space s%d\nkey k 1\n' {0..7})$'\n'
taken ''
refused 20 limit 'space s0' 'space if'
head=''
taken $'# of two\n\nhx 02\nservers 1\ntolerate 0\nspace one\nkey k 1'

# Behind two spaces.
spaces=$'hx 2\nservers 1\ntolerate 0\nspace one\nkey k 1\nstring v\nspace two\nkey k 1\nint n 0 9\n'
head=$spaces
refused 10 order 'servers 1' 'hx 2' 'key k 1'
refused 10 twice 'string n' 'space one'
refused 10 bounds 'session 2'
refused 11 order $'steps\nget one "a"'
head=$spaces$'session 1\n'
refused 11 order 'space three' 'put "a" v="x"' 'put if "a"' stop 'tick one u1'
refused 11 unknown 'put two "a" v="x"' 'put three "a" v="x"' "get $long_name \"a\""
refused 11 bounds 'search two n=1..0'

# Steps: whether one can be taken only a run can tell.
head=$spaces$'session 1\nput one "a" v="x"\nput two "a" n=5\nget one "a"\nsteps\n'
refused 15 unknown 'tick u1'
refused 15 bounds 'tick one u2' 'halt two s2'
refused 15 order 'deliver 1.0' 'deliver one'
taken '' $'tick one u1\ntick two u1' $'halt one s1\nhalt two s1\nhalt one s1' 'tick two u1'
taken $'tick one u1\ndeliver two 1.0'
exit "$failed"
