# The first put goes through regions 0, 4 and 6. The second one moves the object from region 4 to
# region 5, and goes through the old region first. Afterwards it is found in the new one alone.
hx 1
space books
key name 2
string genre
int year 1900 2099
subspace genre 4
subspace year 2
servers 4
tolerate 1
session 1
put "a"
put "a" genre="d"
session 2
search genre=""
search genre="d"
