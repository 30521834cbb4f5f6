hx 1
space nothing
key k 1
servers 1
tolerate 0
