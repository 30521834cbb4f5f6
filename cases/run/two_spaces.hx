hx 2
servers 1
tolerate 0
space one
key k 1
string v
space two
key k 1
int n 0 9
session 1
put one "a" v="x"
put two "a" n=3
get one "a"
