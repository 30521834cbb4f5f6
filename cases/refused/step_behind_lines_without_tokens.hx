hx 1
space b

key k 1
# Lines without tokens are counted.
servers 1
tolerate 0
session 1
get "a"

steps
	# The post is not yet sent.

deliver 1.0
tick u1
