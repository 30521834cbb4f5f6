# The leader gives the second put version 2 and halts before any other replica has it; the next
# leader gives version 2 to another put.
hx 1
space books
key name 2
string genre
int year 1900 2099
subspace genre 4
subspace year 2
servers 4
tolerate 1
session 1
put "a" genre="b" year=1999
put "a" genre="d"
session 2
put "a" year=2000
steps
tick u1
deliver 1.0
deliver 2.0
deliver 3.0
deliver 4.0
deliver 5.0
deliver 6.0
deliver 7.0
deliver 8.0
deliver 9.0
deliver 10.0
deliver 11.0
deliver 12.0
tick u1
deliver 14.0
halt s1
tick u2
deliver 16.0
deliver 18.0
deliver 18.4
deliver 20.0
deliver 15.0
