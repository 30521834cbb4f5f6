# Server 3 joins and is ready when a snapshot of epoch 3 comes: it asks for that epoch, and says
# again that it is ready.
hx 1
space one
key k 1
string v
servers 4
tolerate 1
session 1
put "a" v="x"
add 3 0
steps
tick u1
deliver 1.0
deliver 2.0
deliver 3.0
deliver 4.0
tick u1
deliver 6.0
deliver 7.1
deliver 7.2
deliver 8.0
halt s4
deliver 11.0
deliver 12.1
deliver 13.0
