hx 2
servers 1
tolerate 0
space one
key k 1
string v
space two
key k 1
int n 0 9
session 1
put one "a" v="x"
put two "a" n=5
get one "a"
steps
tick one u1
tick one u1
deliver one 1.0
deliver one 3.0
tick one u1
