hx 1
space one
key k 1
string v
servers 1
tolerate 0
session 1
put "a" v="x"
get "a"
