# Server 2 is stopped and server 3 added in its place at once, while two puts are under way. Server
# 1 adopts both at once: it sends server 3 its snapshot and both puts, and server 3 acknowledges.
hx 1
space one
key k 1
string v
servers 3
tolerate 1
session 1
stop 2
add 3 0
session 2
put "a" v="x"
get "b"
session 3
put "b" v="y"
get "a"
steps
tick u1
tick u2
tick u3
deliver 1.0
deliver 2.0
deliver 4.0
deliver 3.0
deliver 6.0
deliver 8.5
tick u1
deliver 10.0
deliver 11.0
