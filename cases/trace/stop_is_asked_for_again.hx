# The coordinator asks server 3 again to halt. That it has halted is told twice, and heard once:
# epoch 2 is issued to those that are left, and the stop answered.
hx 1
space one
key k 2
string v
servers 4
tolerate 1
session 1
stop 3
steps
tick u1
deliver 1.0
tick c
deliver 3.0
deliver 4.0
deliver 4.0
