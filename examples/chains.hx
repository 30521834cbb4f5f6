# Books on four servers: a put travels through the region of its key, of its genre and of its year,
# and in each through two replicas; a new genre takes it through the old region and the new one.
hx 1
space books
key name 2                      # regions 0 and 1
string genre
int year 1900 2099
subspace genre 4                # regions 2 to 5
subspace year 2                 # regions 6 and 7
servers 4
tolerate 1                      # each region on two servers

session 1
  put "a" genre="b" year=1999
  get "a"
  put "a" genre="d"

session 2                       # begins once the first has no call left
  cput "a" if genre="b" set year=2000
  put "b" genre="b"
  get "b"
  del "a"
  get "a"
