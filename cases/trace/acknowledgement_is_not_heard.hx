# Server 2 acknowledges the put and halts. Server 1 has adopted epoch 2 when that acknowledgement
# comes: its successor is server 3 now, so it waits for the acknowledgement of server 3.
hx 1
space one
key k 1
string v
servers 3
tolerate 2
session 1
put "a" v="x"
steps
tick u1
deliver 1.0
deliver 2.0
deliver 3.0
deliver 4.0
halt s2
deliver 6.0
deliver 7.0
deliver 5.0
