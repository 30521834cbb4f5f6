# A day of a library: a book is kept by its title, and found by its author, or by its shelf and year.
# Meanwhile a server is taken out and a replica added. `hx plan` tells which regions each search asks,
# `hx replay` what it finds.
hx 1
space library
key title 4                     # regions 0 to 3
string author
string shelf
int year 1450 2049
subspace author 4               # regions 4 to 7
subspace shelf 2, year 4        # regions 8 to 15
servers 5
tolerate 1

session 1                       # at the desk
  put "Odyssee" author="Homer" shelf="Antike" year=1488
  put "Die Verwandlung" author="Kafka" shelf="Moderne" year=1915
  put "Das Schloß" author="Kafka" shelf="Moderne" year=1926
  stop 2
  put "Žert" author="Kundera" shelf="Moderne" year=1967

session 2                       # by mail
  search author="Kafka"
  cput "Das Schloß" if shelf="Moderne" set shelf="Ausleihe"
  search shelf="Moderne" year=1900..1999
  add 5 0

session 3
  get "Das Schloß"
  del "Odyssee"
  get "Odyssee"
  search
