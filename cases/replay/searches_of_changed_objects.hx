# Rows come in byte order of keys, "k10" before "k7". An object is found by its last value alone,
# and one that was removed isn't found.
hx 1
space one
key k 1
string v
int n 0 999
servers 1
tolerate 0
session 1
search
put "k9" n=9
put "k10" n=10
put "k7" n=7
put "k500" n=500
search
search n=9..10
search n=500..600
search n=501..600
put "k500" n=700
put "k500" n=900
search n=0..899
search n=900..999
search n=500
del "k7"
search n=7
search n=8..999
