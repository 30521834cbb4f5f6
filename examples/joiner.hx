# A replica is added to a region of two servers. The last ready one sends it what is committed and
# what is pending; once it has installed that, the next configuration has it ready. A second add
# meanwhile is told that one is joining.
hx 1
space books
key name 2
string genre
int year 1900 2099
subspace genre 4
subspace year 2
servers 4
tolerate 1

session 1
  put "a" genre="b" year=1999
  add 3 0
session 2
  add 3 0
  get "a"
  add 3 0

steps
  tick u1                       # the put goes all the way: entries 1 to 13
  deliver 1.0
  deliver 2.0
  deliver 3.0
  deliver 4.0
  deliver 5.0
  deliver 6.0
  deliver 7.0
  deliver 8.0
  deliver 9.0
  deliver 10.0
  deliver 11.0
  deliver 12.0
  tick u1
  deliver 14.0                  # the add is heard: epoch 2 at once, with server 3 joining region 0
  deliver 15.0
  deliver 15.1                  # server 2, the last ready one, adopts it and sends its snapshot
  tick u2
  deliver 18.0                  # the second add: one is joining already
  deliver 15.2                  # server 3 adopts epoch 2, with nothing installed in region 0
  deliver 17.0                  # it installs the snapshot, and says that it is ready
  deliver 17.0                  # a second time: it says so again, and nothing comes of that
