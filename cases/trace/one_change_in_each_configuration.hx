# Server 2 halts while server 3 is to be taken out. Epoch 2 is without server 2, and doesn't answer
# the stop; epoch 3 is without server 3 too, and does.
hx 1
space one
key k 2
string v
servers 4
tolerate 1
session 1
stop 3
steps
tick u1
deliver 1.0
halt s2
deliver 3.0
tick c
deliver 2.0
deliver 6.0
