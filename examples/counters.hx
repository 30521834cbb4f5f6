# What atomic operations are for: a counter with its highest day and its log, kept by two doors at once,
# and a stock. An atomic operation edits what is there, all of its edits or none. It has no condition:
# that the last lamp is sold once alone takes a conditional put.
hx 1
space shop
key what 1
int number 0 1000000
int most 0 1000000
string log
servers 2
tolerate 1

session 1                       # the front door
  put "visitors" number=0 most=0
  put "lamps" number=1
  atomic "visitors" add number=30 max most=30 append log="mon 30, "
  atomic "visitors" add number=45 max most=45 append log="tue 45, "
  cput "lamps" if number=1 set number=0 log="sold at the front"
  get "visitors"

session 2                       # the back door
  atomic "chairs" add number=1  # nobody has put any
  get "visitors"
  atomic "visitors" add number=8 max most=8 append log="back 8, "
  cput "lamps" if number=1 set number=0 log="sold at the back"
  atomic "lamps" add number=12 append log=", 12 more"
  atomic "lamps" add number=9223372036854775807 append log=", and more than there are"
  get "lamps"
