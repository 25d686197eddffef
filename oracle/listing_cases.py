#!/usr/bin/env python3
# Writes crates/replay_listing/data/cases: listings whose answers were worked out by hand from the meaning of the states and refusals.
# Nothing of the product is run. Run it at the root of the repository: python3 oracle/listing_cases.py
#
# Each case is lent four cards and sixteen entries an edition (a tag takes two entries) and two slips.

SUITS = "AKQJT98765432... .AKQJT98765432.. ..AKQJT98765432. ...AKQJT98765432"
A = f'[Deal "N:{SUITS}"]\n'  # spades with North, hearts East, diamonds South, clubs West
B = f'[Deal "E:{SUITS}"]\n'
C = f'[Deal "S:{SUITS}"]\n'
A_FROM_EAST = '[Deal "E:.AKQJT98765432.. ..AKQJT98765432. ...AKQJT98765432 AKQJT98765432..."]\n'
PART = '[Deal "N:AKQJT98765432... - - -"]\n'
BAD = '[Deal "N:1"]\n'  # does not parse: the hands of a deal before it stay, and the deal is kept unparsed
TABLE = '[DoubleDummyTricks "00000000000000000000"]\n'
EVENT = '[Event "x"]\n'


def edition(*boards):
    return "\n".join(boards)


def total(n, blank=0, own=0, old=0, near=0, twin=0, solve=0):
    return f"total={n} blank={blank} own={own} old={old} near={near} twin={twin} solve={solve}\n"


cases = []


# page: the page's bytes, 512 where it does not matter. A text that is longer than its page is refused with 7 and its length.
def case(old, new, expected, limit=16384, page=512):
    old, new, text = old.encode(), new.encode(), expected.encode()
    fits = len(text) <= page
    refusal, output = (0, text) if fits else (7, b"")
    cases.append(
        limit.to_bytes(2, "little") + page.to_bytes(2, "little")
        + len(old).to_bytes(2, "little") + old + len(new).to_bytes(2, "little") + new
        + bytes([refusal]) + len(text).to_bytes(4, "little") + len(output).to_bytes(2, "little") + output
    )


# no boards
case("", "", total(0))
case("", "; nothing\n", total(0))
case(A + TABLE, "", total(0))
case("", EVENT, "board=1 state=blank from=0\n" + total(1, blank=1))

# the example
case(
    A + TABLE,
    edition(A, B, B, EVENT),
    "board=1 state=old from=1\nboard=2 state=solve from=0\nboard=3 state=twin from=2\nboard=4 state=blank from=0\n"
    + total(4, blank=1, old=1, twin=1, solve=1),
)

# own comes before old
case(A + TABLE, A + TABLE, "board=1 state=own from=0\n" + total(1, own=1))

# old: the first with deal and table, before near
case(edition(C, A, A + TABLE, A + TABLE), A, "board=1 state=old from=3\n" + total(1, old=1))
case(edition(B, A + TABLE), edition(A, A + TABLE), "board=1 state=old from=2\nboard=2 state=own from=0\n" + total(2, own=1, old=1))
case(A_FROM_EAST + TABLE, A, "board=1 state=old from=1\n" + total(1, old=1))
case(A, A, "board=1 state=solve from=0\n" + total(1, solve=1))
case(B + TABLE, A, "board=1 state=solve from=0\n" + total(1, solve=1))

# near: the first with deal and table, before or behind, and before twin
case("", edition(A, B, A + TABLE, A + TABLE), "board=1 state=near from=3\nboard=2 state=solve from=0\nboard=3 state=own from=0\nboard=4 state=own from=0\n" + total(4, own=2, near=1, solve=1))
case("", edition(A + TABLE, A), "board=1 state=own from=0\nboard=2 state=near from=1\n" + total(2, own=1, near=1))
case("", edition(A, A, A + TABLE), "board=1 state=near from=3\nboard=2 state=near from=3\nboard=3 state=own from=0\n" + total(3, own=1, near=2))

# twin: the first of them is solved, and each later one has it as its source
case("", edition(A, A, A_FROM_EAST), "board=1 state=solve from=0\nboard=2 state=twin from=1\nboard=3 state=twin from=1\n" + total(3, twin=2, solve=1))
case("", edition(B, A, B, A), "board=1 state=solve from=0\nboard=2 state=solve from=0\nboard=3 state=twin from=1\nboard=4 state=twin from=2\n" + total(4, twin=2, solve=2))

# not whole: part of a deal, and a deal kept unparsed with the same hands and a table
case(PART + TABLE, PART + TABLE, "board=1 state=blank from=0\n" + total(1, blank=1))
case(A + BAD + TABLE, A, "board=1 state=solve from=0\n" + total(1, solve=1))
case("", edition(A, A + BAD + TABLE), "board=1 state=solve from=0\nboard=2 state=blank from=0\n" + total(2, blank=1, solve=1))
case("", edition(A + BAD, A), "board=1 state=blank from=0\nboard=2 state=solve from=0\n" + total(2, blank=1, solve=1))
case(edition(A + BAD + TABLE, A + TABLE), A, "board=1 state=old from=2\n" + total(1, old=1))

# 1, by the limit
case(A, B, "refused=1 edition=old\n", limit=len(A) - 1)
case("", A, "refused=1 edition=new\n", limit=len(A) - 1)
case(A, "", "refused=1 edition=old\n", limit=len(A) - 1)
case(A, A, "board=1 state=solve from=0\n" + total(1, solve=1), limit=len(A))
case("", "", total(0), limit=0)

# 2: five boards on four cards
FIVE = edition(EVENT, EVENT, EVENT, EVENT, EVENT)
case(FIVE, A, "refused=2 edition=old\n")
case(A, FIVE, "refused=2 edition=new\n")
case(FIVE, FIVE, "refused=2 edition=old\n")

# 3: eighteen entries where sixteen are lent
NINE_TAGS = EVENT * 9
case(NINE_TAGS, A, "refused=3 edition=old\n")
case(A, NINE_TAGS, "refused=3 edition=new\n")
case(edition(A + TABLE, B + TABLE, C + TABLE, A + TABLE), C, "board=1 state=old from=3\n" + total(1, old=1))

# several at once: 2 comes before 3, and each of the old edition before those of the new
case("", edition(NINE_TAGS, EVENT, EVENT, EVENT, EVENT), "refused=2 edition=new\n")
case(NINE_TAGS, FIVE, "refused=3 edition=old\n")
case(FIVE, A, "refused=2 edition=old\n", limit=len(FIVE))
case(FIVE, A + EVENT, "refused=2 edition=old\n", limit=len(A))
case(A, A + TABLE + FIVE, "refused=1 edition=new\n", limit=len(A))
case(A + FIVE, FIVE, "refused=1 edition=old\n", limit=len(A))

# 4: three boards to solve where two slips are lent
case("", edition(A, B, C), "refused=4 edition=new\n")
case("", edition(A, B), "board=1 state=solve from=0\nboard=2 state=solve from=0\n" + total(2, solve=2))
case(C + TABLE, edition(A, B, C), "board=1 state=solve from=0\nboard=2 state=solve from=0\nboard=3 state=old from=1\n" + total(3, old=1, solve=2))

# 7: the page is too short, or just long enough
ONE = "board=1 state=solve from=0\n" + total(1, solve=1)
case("", A, ONE, page=len(ONE))
case("", A, ONE, page=len(ONE) - 1)
case("", A, ONE, page=0)
case("", FIVE, "refused=2 edition=new\n", page=22)
case("", FIVE, "refused=2 edition=new\n", page=21)
case("", edition(A, B, C), "refused=4 edition=new\n", page=1)
case("", "", total(0), page=0)

with open("crates/replay_listing/data/cases", "wb") as f:
    f.write(b"".join(cases))
print(len(cases), "cases")
