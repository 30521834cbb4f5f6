# Server 2 passes an update on to server 3 and halts. By epoch 1 server 3 hears server 2 alone: of
# the update that server 1 sends it of epoch 2 it only learns that there is a higher epoch, and asks
# for it. By epoch 2 it hears server 1 alone: the update of server 2 is dropped, and that of server
# 1 taken.
hx 1
space one
key k 1
string v
servers 3
tolerate 2
session 1
put "a" v="x"
steps
tick u1
deliver 1.0
deliver 2.0
halt s2
deliver 4.0
deliver 5.0
deliver 6.0
deliver 5.1
deliver 3.0
deliver 6.0
