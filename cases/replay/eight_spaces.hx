# As many spaces as there may be: the first session goes through all of them, from the last.
hx 2
servers 1
tolerate 0
space a
key k 1
space b
key k 1
space c
key k 1
space d
key k 1
space e
key k 1
space f
key k 1
space g
key k 1
space h
key k 1
session 1
get h "x"
get g "x"
get f "x"
get e "x"
get d "x"
get c "x"
get b "x"
get a "x"
session 2
get d "x"
