# The rows of four regions, of keys that are the same up to eight bytes and further.
hx 1
space one
key k 4
servers 1
tolerate 0
session 1
put "ac"
put "abcdefghijkl"
put "abcdefgh"
put ""
put "abcdefghijk"
put "abc"
search
