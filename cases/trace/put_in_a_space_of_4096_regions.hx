# A write goes by its key in region 49 of 256 and by its object in region 2894, of 3840 more.
hx 1
space wide
key k 256
string g
int y 1900 2099
subspace g 16, y 240
servers 2
tolerate 0
session 1
put "a" g="b" y=2099
