hx 1
space books
key name 2
string genre
int year 1900 2099
subspace genre 4
subspace year 2
servers 4
tolerate 1
session 1
put "a"
steps
tick u1
halt u1
