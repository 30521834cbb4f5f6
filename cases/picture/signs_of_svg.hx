# A text has the four signs that mean something in SVG.
hx 1
space one
key k 1
string v
servers 1
tolerate 0
session 1
put "a&b" v="<\">"
