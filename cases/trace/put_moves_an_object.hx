# A put, a get, and a put that takes the object from region 4 to region 5.
hx 1
space books
key name 2
string genre
int year 1900 2099
subspace genre 4
subspace year 2
servers 4
tolerate 1
session 1
put "a" genre="b" year=1999
get "a"
put "a" genre="d"
