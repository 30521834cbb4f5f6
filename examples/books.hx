# Two books are put, one is lent, and both are looked up.
hx 1
space books
key title 1
string author
string shelf

servers 1        # one server has every book
tolerate 0

session 1
  put "Odyssey" author="Homer" shelf="classics"
  get "Ulysses"                     # not there yet
  put "Ulysses" author="Joyce"      # on no shelf
  put "Odyssey" shelf="lent"
  get "Odyssey"
  get "Ulysses"
