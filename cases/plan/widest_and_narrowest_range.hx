# Cells of all numbers of 64 bits, of a range of one number, and of numbers outside their range.
hx 1
space wide
key k 1
int n -9223372036854775808 9223372036854775807
int m -9223372036854775808 -9223372036854775808
int y 1900 2099
subspace n 256                  # regions 1 to 256
subspace m 256                  # regions 257 to 512
subspace n 1, y 2               # regions 513 and 514
servers 1
tolerate 0
session 1
search n=9223372036854775807
search n=0
search n=-9223372036854775808
search m=9223372036854775807
search y=2200
search n=9223372036854775807 y=1800
