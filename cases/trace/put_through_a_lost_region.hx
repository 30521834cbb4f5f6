# The put would have a place in region 6, which is lost. What refuses it is the first version of its
# key all the same, and goes through the key's region alone.
hx 1
space books
key name 2
string genre
int year 1900 2099
subspace genre 4
subspace year 2
servers 4
tolerate 1
session 1
stop 3
stop 4
put "a"
get "a"
