# The leader of a key halts with an update that no other server has heard of. The next server of the
# region leads the key at once, in a new configuration, and gives the same version to another put.
# The first one is sent anew and done after it, and the update that comes late isn't heard.
hx 1
space books
key name 2
string genre
int year 1900 2099
subspace genre 4
subspace year 2
servers 4
tolerate 1

session 1
  put "a" genre="b" year=1999
  put "a" genre="d"
session 2
  put "a" year=2000

steps
  tick u1                       # the first put goes all the way: entries 1 to 13
  deliver 1.0
  deliver 2.0
  deliver 3.0
  deliver 4.0
  deliver 5.0
  deliver 6.0
  deliver 7.0
  deliver 8.0
  deliver 9.0
  deliver 10.0
  deliver 11.0
  deliver 12.0
  tick u1
  deliver 14.0                  # server 1 gives the second put version 2
  halt s1                       # and halts, before any other has heard of it
  tick u2                       # session 2 calls server 1 in vain
  deliver 16.0                  # the coordinator hears that server 1 has halted: epoch 2 at once
  deliver 18.0                  # server 2 adopts it, and leads the key
  deliver 18.4                  # session 2 adopts it, and sends its put again, to server 2
  deliver 20.0                  # server 2 gives version 2 to that put
  deliver 15.0                  # the update of server 1 comes late and isn't heard: by the
                                # configuration of server 2 nobody stands before it
