# Server 3 is added to region 0 twice at once, and hears its snapshot twice.
hx 1
space books
key name 2
string genre
int year 1900 2099
subspace genre 4
subspace year 2
servers 4
tolerate 1
session 1
put "a" genre="b" year=1999
add 3 0
session 2
add 3 0
steps
tick u1
deliver 1.0
deliver 2.0
deliver 3.0
deliver 4.0
deliver 5.0
deliver 6.0
deliver 7.0
deliver 8.0
deliver 9.0
deliver 10.0
deliver 11.0
deliver 12.0
tick u1
deliver 14.0
deliver 15.0
deliver 15.1
tick u2
deliver 18.0
deliver 15.2
deliver 17.0
deliver 17.0
