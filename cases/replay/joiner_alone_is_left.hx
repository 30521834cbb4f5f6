# Server 4 joins region 0 when "a" and the first version of "b" are committed there, and the second
# version of "b" and "c" pending. Then servers 1 and 2 halt, and server 4 is all that is left of the
# region. It finds what was committed, in byte order. Session 1, whose answer for "a" was late,
# calls it: that call was done, as server 4 knows. At last what was pending is done too.
hx 1
space one
key k 1
string v
subspace v 2
servers 4
tolerate 1
session 1
put "b" v="w"
put "a" v="x"
session 2
put "b" v="y"
session 3
put "c" v="z"
session 4
add 4 0
search
search
steps
tick u1
deliver 1.0
deliver 2.0
deliver 3.0
deliver 4.0
deliver 5.0
deliver 6.0
deliver 7.0
deliver 8.0
tick u1
deliver 10.0
deliver 11.0
deliver 12.0
deliver 13.0
deliver 14.0
deliver 15.0
deliver 16.0
tick u2
deliver 18.0
deliver 19.0
tick u3
deliver 21.0
deliver 22.0
tick u4
deliver 24.0
deliver 25.1
deliver 25.3
deliver 26.0
deliver 28.2
halt s1
halt s2
deliver 30.0
deliver 31.0
deliver 33.1
deliver 25.8
deliver 33.5
tick u4
deliver 37.0
deliver 38.0
deliver 33.2
deliver 40.0
deliver 41.0
