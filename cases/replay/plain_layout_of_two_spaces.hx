# Calls of two spaces in turn, with more blanks, comments and zeros than are needed. One space has
# the name of a call.
hx 2

servers 1
tolerate 00
space  books # the first
key name 1
string genre
space put
key name 1
int name_too 0 9
session 1
put put "a"  name_too = 5
get books "a"
search put name_too=1 .. 2
del  books "b"
session 2
cput books "a" if genre="b" set genre = "c"
atomic put "a" add name_too=01
search books # all
add put 1 00
