# A shop keeps two kinds of record on the same servers: its customers, found by their city or by what
# they have spent, and its orders, found by who gave them and how far they are. A session's calls are
# made in their order across both: nobody orders before being known.
hx 2
servers 3
tolerate 1

space customers
key name 2                      # regions 0 and 1
string city
int spent 0 9999
subspace city 2                 # regions 2 and 3

space orders
key number 2                    # regions 0 and 1 of this space
string customer
string state
int price 0 999
subspace customer 2             # regions 2 and 3
subspace state 2                # regions 4 and 5

session 1                       # ada, at home
  put customers "ada" city="turin"
  put orders "1001" customer="ada" state="open" price=120
  atomic customers "ada" add spent=120
  search orders customer="ada"

session 2                       # the packer
  search orders state="open"
  cput orders "1001" if state="open" set state="sent"
  get orders "1001"
  search customers city="turin" spent=100..9999
