# Server 3 is stopped, and epoch 2 issued. Server 1 has it when the put comes, server 2 hasn't: it
# takes the update all the same, asks for the configuration, and acknowledges in epoch 1. Server 1
# hears that.
hx 1
space one
key k 1
string v
servers 3
tolerate 1
session 1
stop 3
session 2
put "a" v="x"
steps
tick u1
deliver 1.0
deliver 2.0
deliver 3.0
deliver 4.0
tick u2
deliver 6.0
deliver 7.0
deliver 8.1
deliver 9.0
