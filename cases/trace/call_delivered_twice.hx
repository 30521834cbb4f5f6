# The call is delivered twice and answered twice; the second answer ends nothing.
hx 1
space one
key k 1
string v
servers 1
tolerate 0
session 1
put "a"
steps
tick u1
deliver 1.0
deliver 1.0
