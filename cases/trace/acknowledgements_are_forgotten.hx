# Server 1 has heard the acknowledgement of version 2 alone when it adopts epoch 2: it sends all
# updates again and has forgotten that one, so that of version 1 commits version 1 alone.
hx 1
space one
key k 1
string v
servers 3
tolerate 1
session 1
put "a" v="x"
session 2
put "a" v="y"
session 3
put "a" v="z"
steps
tick u1
tick u2
tick u3
deliver 1.0
deliver 2.0
deliver 3.0
deliver 4.0
deliver 5.0
deliver 6.0
deliver 8.0
halt s3
deliver 11.0
deliver 12.0
deliver 7.0
