# Servers 3 and 4 are stopped, and with the second of them region 6 is lost, in which the put would
# have a place.
hx 1
space books
key name 2
string genre
int year 1900 2099
subspace genre 4
subspace year 2
servers 4
tolerate 1
session 1
stop 3
stop 4
put "a" genre="b" year=1999
get "a"
