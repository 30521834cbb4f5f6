# The regions of keys are the lowest bytes of the published hashes of "", "a" and "foobar" (FNV-1a:
# 25, 8c and e8 in base 16), read from the lowest bit on; an axis of 4 parts takes two of the bits.
hx 1
space hashed
key k 256
string g
subspace g 4
servers 1
tolerate 0
session 1
search k=""
search k="a"
search k="foobar"
search g=""
search g="b"
search g="d"
