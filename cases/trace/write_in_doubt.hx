# The put is on its way when both replicas of region 6 halt, and a configuration is issued for each.
hx 1
space books
key name 2
string genre
int year 1900 2099
subspace genre 4
subspace year 2
servers 4
tolerate 1
session 1
put "a" genre="b" year=1999
steps
tick u1
deliver 1.0
halt s3
halt s4
