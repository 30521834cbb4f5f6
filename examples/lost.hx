# Two servers fail while a write is under way, and with them both replicas of region 6: the write is in
# doubt, a later one that needs the region is refused, and what needs other regions alone goes on.
hx 1
space books
key name 2
string genre
int year 1900 2099
subspace genre 4
subspace year 2
servers 4
tolerate 1

session 1
  put "a" genre="b" year=1999   # in doubt: it was on its way to region 6
  put "c" genre="b" year=1999   # refused: it would have a place in region 6
  get "a"
session 2
  put "b" genre="c" year=2050   # done: its regions are all there
  search genre="c"

steps
  tick u1
  deliver 1.0
  halt s3
  halt s4
