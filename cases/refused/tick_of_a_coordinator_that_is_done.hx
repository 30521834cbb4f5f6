# Server 4 is out and server 3 ready: there is nothing that the coordinator would send again.
hx 1
space one
key k 2
string v
servers 4
tolerate 1
session 1
stop 4
add 3 0
steps
tick u1
deliver 1.0
deliver 2.0
deliver 3.0
deliver 4.4
tick u1
deliver 6.0
deliver 4.1
deliver 7.1
deliver 7.2
deliver 9.0
deliver 11.0
tick c
