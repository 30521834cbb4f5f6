hx 2
servers 1
tolerate 0

space one
key k 1
space two
key k 1
session 1
get two "a"
# Lines without tokens are counted.
steps
tick two u1

deliver one 1.0
