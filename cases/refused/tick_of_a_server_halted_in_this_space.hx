hx 2
servers 1
tolerate 0
space one
key k 1
space two
key k 1
session 1
put one "a"
get two "a"
steps
halt one s1
tick one s1
