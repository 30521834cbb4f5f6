# A server is taken out while a put is under way, and nobody waits for it. The next configuration is
# issued at once, each server adopts it when it hears of it, and until then servers of both epochs
# work side by side. The put goes down its chain and back through servers 1, 2 and 3, of which first
# server 2 alone has epoch 2. What keeps this safe is whom a server hears: an update from its
# predecessor alone, an acknowledgement from its successor alone, by the configuration that it has
# itself. In the picture the ground behind an actor's line is darker from where it adopts epoch 2.
hx 1
space books
key name 2
string genre
int year 1900 2099
subspace genre 4
subspace year 2
servers 4
tolerate 1

session 1
  put "a" genre="b" year=1999   # down servers 1, 2 (region 0), 1, 2 (region 4), 3, 4 (region 6)
session 2
  stop 4
session 3
  get "a"
  get "a"

steps
  tick u1
  deliver 1.0                   # server 1 gives the put version 1 and passes it on
  tick u2
  deliver 3.0                   # the stop is heard
  deliver 4.0                   # server 4 halts
  deliver 5.0                   # epoch 2 is issued at once: no server of epoch 1 is asked
  deliver 6.6                   # the stop is answered
  deliver 6.1                   # server 2 adopts epoch 2, alone
  deliver 2.0                   # it takes the update of server 1, which has epoch 1
  deliver 9.0                   # server 1 takes that of server 2, and asks for the new epoch
  deliver 10.1
  deliver 11.0                  # server 3, of epoch 1, passes the update on to server 4, in vain
  tick u3
  deliver 13.0                  # server 1 answers a get in epoch 1: nothing is committed yet
  deliver 14.0
  deliver 6.2                   # server 3 adopts epoch 2: it is the last now, and acknowledges
  deliver 16.0
  deliver 17.0                  # server 1 hears its successor, though it still has epoch 1
  deliver 18.1
  deliver 19.0                  # the whole chain has committed: server 1 answers
  deliver 20.1                  # the put is done
  tick u3
  deliver 22.0                  # server 1, still in epoch 1, answers a get with the put
  deliver 23.0
