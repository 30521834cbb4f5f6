# The only server halts in one space: there its region is lost, and the other space answers.
hx 2
servers 1
tolerate 0
space one
key k 1
space two
key k 1
session 1
put one "a"
get two "a"
session 2
get two "b"
steps
halt one s1
