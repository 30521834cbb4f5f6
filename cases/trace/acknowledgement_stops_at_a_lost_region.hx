# Both servers of regions 0 and 4 halt when their update has come to region 6. There it is
# committed, and server 3 acknowledges it to nobody.
hx 1
space books
key name 2
string genre
int year 1900 2099
subspace genre 4
subspace year 2
servers 4
tolerate 1
session 1
put "a" genre="b" year=1999
steps
tick u1
deliver 1.0
deliver 2.0
deliver 3.0
deliver 4.0
deliver 5.0
halt s1
halt s2
deliver 7.0
deliver 8.0
deliver 6.0
