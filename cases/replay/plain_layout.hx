# Calls of each kind, with more blanks, comments and zeros than are needed: the report has none.
hx 01
	space  books # its name
key name 1

string genre
int year -9223372036854775808 9223372036854775807
subspace genre 4 ,year 2
subspace year 3
servers 1
tolerate 00
session 1
put "a # b"  genre = "say \"b\"\n" year=-0
get "\\\tß"
del ""
cput "a" if genre="b" year = 7 set year=02000
search year=-1990 .. 2010 name="a"
 search
atomic "a"  add year = -0 append genre="c"# both
atomic "b" min	year=-9223372036854775808
atomic "b" max year =-01
add 1 00 # a member
stop 01 
