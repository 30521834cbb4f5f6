# Server 2 sends its snapshot to server 3, which joins, and halts. Server 3 has adopted epoch 3 when
# the snapshot comes: server 1 stands before it now, so it waits for the snapshot of server 1.
hx 1
space one
key k 1
string v
servers 3
tolerate 1
session 1
put "a" v="x"
add 3 0
get "a"
steps
tick u1
deliver 1.0
deliver 2.0
deliver 3.0
deliver 4.0
tick u1
deliver 6.0
deliver 7.1
halt s2
deliver 9.0
deliver 10.1
deliver 8.0
