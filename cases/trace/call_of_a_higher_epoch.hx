# Session 1 has epoch 2 when it calls, and server 1 hasn't: it asks for that epoch first, and
# answers the put.
hx 1
space one
key k 1
string v
servers 2
tolerate 0
session 1
stop 2
put "a" v="x"
steps
tick u1
deliver 1.0
deliver 2.0
deliver 3.0
deliver 4.2
deliver 4.1
tick u1
deliver 7.0
