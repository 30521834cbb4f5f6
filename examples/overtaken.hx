# Three sessions write the same book at once, and the messages of the second put overtake those of
# the first: a replica keeps an update early until the one before it has come.
hx 1
space books
key name 2
string genre
int year 1900 2099
subspace genre 4
subspace year 2
servers 4
tolerate 1

session 1
  put "a" genre="b" year=1999
  del "a"
session 2
  put "a" genre="d" year=1999
session 3
  put "a" genre="b"

steps
  tick u1                       # the first put goes all the way: entries 1 to 13
  deliver 1.0
  deliver 2.0
  deliver 3.0
  deliver 4.0
  deliver 5.0
  deliver 6.0
  deliver 7.0
  deliver 8.0
  deliver 9.0
  deliver 10.0
  deliver 11.0
  deliver 12.0
  tick u1                       # a del, and a put of each of the others
  tick u2
  tick u3
  deliver 14.0                  # their leader gives them the versions 2, 3 and 4
  deliver 15.0
  deliver 16.0
  deliver 17.0
  deliver 18.0
  deliver 19.0
  deliver 21.0                  # version 4 goes on and comes to the region of genre "b"
  deliver 22.0
  deliver 23.0
  deliver 24.0
  deliver 26.0                  # before version 2 does, which is to drop the book there
  deliver 20.0                  # now both are taken
