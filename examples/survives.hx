# The leader of a key halts after the update that it had assigned has come to the next server: that
# server leads the key from then on, with the update, and the session is answered by it.
hx 1
space books
key name 2
string genre
int year 1900 2099
subspace genre 4
subspace year 2
servers 4
tolerate 1

session 1
  put "a" genre="b" year=1999
session 2
  get "a"

steps
  tick u1
  deliver 1.0                   # server 1 gives the put version 1 and passes it on
  deliver 2.0                   # server 2 has it
  halt s1
