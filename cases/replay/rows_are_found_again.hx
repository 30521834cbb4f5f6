# The second search finds "d" again, "a" with another text and "c" for the first time, and the third
# finds "a" as the second did and "b" as the first did.
hx 1
space one
key k 1
string v
int n 0 9
servers 1
tolerate 0
session 1
put "a" v="x" n=1
put "b" v="y"
put "d" v="z" n=3
search
put "a" v="w"
put "c" v="v" n=2
search n=1..3
search n=0..1
