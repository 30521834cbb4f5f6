# Server 4 is stopped, and epoch 2 issued. Server 1 has epoch 1 still when it answers the get of
# session 3, and that of session 4, which has epoch 2 already. Later it answers in epoch 2.
hx 1
space books
key name 2
string genre
int year 1900 2099
subspace genre 4
subspace year 2
servers 4
tolerate 1
session 1
put "a" genre="b" year=1999
session 2
stop 4
session 3
get "a"
get "a"
session 4
get "a"
steps
tick u1
deliver 1.0
deliver 2.0
deliver 3.0
deliver 4.0
deliver 5.0
deliver 6.0
deliver 7.0
deliver 8.0
deliver 9.0
deliver 10.0
deliver 11.0
deliver 12.0
tick u2
deliver 14.0
deliver 15.0
deliver 16.0
deliver 17.7
tick u3
deliver 19.0
deliver 20.0
deliver 17.6
tick u4
deliver 23.0
deliver 24.0
