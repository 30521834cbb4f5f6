# Server 2 hears version 1 twice, and version 3 before version 2: it keeps that early, and takes
# both once version 2 has come. Server 1 hears the acknowledgements of versions 3 and 2 first: it
# answers nobody until that of version 1 has come, then all, and once.
hx 1
space one
key k 1
string v
servers 2
tolerate 1
session 1
put "a" v="x"
session 2
put "a" v="y"
session 3
put "a" v="z"
steps
tick u1
tick u2
tick u3
deliver 1.0
deliver 2.0
deliver 3.0
deliver 4.0
deliver 4.0
deliver 6.0
deliver 5.0
deliver 10.1
deliver 10.0
deliver 7.0
deliver 7.0
