# The call of entry 1 is delivered at the entries 2 and 3: the second arrow is dashed, and has no label.
hx 1
space one
key k 1
string v
servers 1
tolerate 0
session 1
put "a" v="x"
steps
tick u1
deliver 1.0
deliver 1.0
