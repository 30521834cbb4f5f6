# The add is answered at once with epoch 2. Until server 3 is ready the coordinator sends that
# again, to the last ready member and to server 3; then epoch 3 is issued.
hx 1
space one
key k 2
string v
servers 4
tolerate 1
session 1
add 3 0
steps
tick u1
deliver 1.0
tick c
