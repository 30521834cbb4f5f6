# Calls between searches, and more sessions; a plan takes no step.
hx 1
space books
key name 2
string genre
int year 1900 2099
subspace genre 4
subspace year 2
servers 4
tolerate 1
session 1
put "a" genre="b"
search genre="b"
session 2
session 3
search name="b"
del "a"
stop 3
search
steps
halt s1
