# A number outside its range, in a text with comments and loose spacing.
# a number
hx 1

space one
key k 1
string v
int n -5 5
servers 1
tolerate 0 # none
session 1
	put "a"  v = "x" n=-7