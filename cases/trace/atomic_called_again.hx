# The first atomic operation is called three times and carried out once. While it is pending the
# leader waits; once it is committed it answers again.
hx 1
space one
key k 1
int n 0 9
servers 2
tolerate 1
session 1
put "a" n=1
atomic "a" add n=1
atomic "a" add n=1
steps
tick u1
deliver 1.0
deliver 2.0
deliver 3.0
deliver 4.0
tick u1
deliver 6.0
deliver 6.0
deliver 7.0
deliver 9.0
deliver 6.0
