# Server 2 has version 2 early when it adopts epoch 2, and forgets it: once version 1 has come it
# takes that alone, and version 2 when server 1 sends it again.
hx 1
space one
key k 1
string v
servers 3
tolerate 1
session 1
put "a" v="x"
session 2
put "a" v="y"
steps
tick u1
tick u2
deliver 1.0
deliver 2.0
deliver 4.0
halt s3
deliver 6.0
deliver 7.1
deliver 3.0
