"""Example lines of sessions and replays, which tests/fuzz-lines cuts and changes at each byte.

Some have only a class: the expected answers to them, and to what is made of them, come from the slow reader and the
slow models. Those with answers or places were worked out by hand: they show that the reader and the models are right.
"""

# Commands that are refused as lines or queries, and one that isn't
REFUSED_COMMANDS = (
    ("interval", b"find"),
    ("interval", b"open"),
    ("interval", b"open 4"),
    ("interval", b"find overlaps{1}"),
    ("interval", b"find same(1 2) xor same(3 4)"),
    ("interval", b"find (same(1 2)"),
    ("interval", b"find overlaps(0"),
    ("interval", b"find overlaps(3 1)"),
    ("interval", b"find holds(+1 2)"),
    ("interval", b"delete1"),
    ("interval", b"delete 18446744073709551616"),
    ("interval", b"insert (5-6) 0"),
    ("interval", b"insert (9 5) 0"),
    ("interval", b"insert (5 5)"),
    ("interval", b"insert (5 5) 0 1"),
    ("interval", b"insert(5 5)0"),
    ("set", b"insert {128} 0"),
    ("set", b"insert {1 128} 0"),
    ("box", b"insert (0 0 2147483648 0) 0"),
    ("box", b"insert (0 5 0 4) 0"),
)

# Moves and openings after a commit, most of them refused
MOVES_AND_FOLLOWS = (
    ("interval", b"move"),
    ("interval", b"move 1"),
    ("interval", b"move x (0 0)"),
    ("interval", b"move 1 (0 0) 1"),
    ("interval", b"move 1 (1 0)"),
    ("interval", b"move 1 {1}"),
    ("interval", b"move 1(0 0)"),
    ("interval", b"move 18446744073709551615 (0 0)"),
    ("interval", b"move 18446744073709551616 (0 0)"),
    ("interval", b"open 4 from"),
    ("interval", b"open 4 from x"),
    ("interval", b"open 4 from 1"),
    ("interval", b"open 4 from 1 xor"),
    ("interval", b"open from 1 overlaps(0 9)"),
    ("interval", b"open 4from 1 overlaps(0 9)"),
    ("interval", b"open 4 from1 overlaps(0 9)"),
    ("interval", b"find from 1 overlaps(0 9)"),
    ("interval", b"open 4 overlaps(0 9) from 1"),
    ("interval", b"open 4 from -1 overlaps(0 9)"),
    ("interval", b"open 4 from 0 overlaps(9 0)"),
    ("interval", b"open 0 from 9 overlaps(0 9)"),
    ("interval", b"open 4 from 1 overlaps(0 9)"),
    ("interval", b"open 4 from 18446744073709551615 overlaps(0 9)"),
    ("interval", b"open 4 from 18446744073709551616 overlaps(0 9)"),
    ("interval", b"open 4 from from 1 overlaps(0 9)"),
)

# Commands that are well-formed, of each word and class, and two lines at once
COMMANDS = (
    ("interval", b"insert (-3 14) 7"),
    ("interval", b"insert (-9223372036854775808 9223372036854775807) 18446744073709551615"),
    ("interval", b" delete  007 "),
    ("interval", b"open 4096 holds(0 9)"),
    ("interval", b"open 4 from 0 within(0 9)"),
    ("interval", b"next 1"),
    ("interval", b"mark 1"),
    ("interval", b"sweep"),
    ("interval", b"close 1"),
    ("interval", b"find same ( 1  2 )or not(within(0 9)and overlaps(3 3))"),
    ("interval", b"find not not same(-0 00)and((holds(1 1)))or within(2 2)"),
    ("interval", b"insert (5 5) 0 find overlaps(5 5)"),
    ("interval", b"insert (5 5) 0\nfind overlaps(5 5)\n"),
    ("interval", b"delete 1\n\n  \nopen 1 same(0 0)"),
    ("box", b"insert (0 0 5 9) 7"),
    ("box", b"insert (-2147483648 -2147483648 2147483647 2147483647) 1"),
    ("box", b"move 2(-1 -1 0 0)"),
    ("box", b"open 1 overlaps(1 2 3 4)or within(0 0 0 0)"),
    ("set", b"insert {1 7 127} 3"),
    ("set", b"insert{}0"),
    ("set", b"move 1 {9 9 -0}"),
    ("set", b"open 1 from 0 not holds{0 1}"),
    ("set", b"find same{}and(within { 127 }or overlaps{3})"),
    ("set", b"insert {1} 0\nmove 1 {2}"),
)

# Searches whose queries are refused, and the places of their faults
REFUSED_QUERIES = (
    ("interval", b"find holds(+1 2)", 11),
    ("interval", b"find same(1 2) and", 18),
    ("interval", b"find ", 5),
    ("interval", b"find    ", 8),
    ("interval", b"find overlaps{1}", 13),
    ("interval", b"find overlaps(3 1)", 13),
    ("interval", b"find overlaps (3 1", 18),
    ("interval", b"find overlaps(0", 15),
    ("interval", b"find same(1 - 2)", 12),
    ("interval", b"find same(1\t2)", 11),
    ("interval", b"find \xc3\xa4", 5),
    ("interval", b"find same(1 2\r)", 13),
    ("interval", b"find same(5-6)", 11),
    ("interval", b"find same4(1 2)", 9),
    ("interval", b"find 4same(1 2)", 5),
    ("interval", b"find notsame(1 2)", 5),
    ("interval", b"find same(1 2)and(same(1 2)", 27),
    ("interval", b"find same(1 2))", 14),
    ("interval", b"find same(1 2) same(3 4)", 15),
    ("interval", b"find same(1 2 3)", 14),
    ("interval", b"find ()", 6),
    ("interval", b"find or same(1 2)", 5),
    ("interval", b"find same(1 2) not same(1 2)", 15),
    ("interval", b"find not", 8),
    ("interval", b"find same and", 10),
    ("interval", b"find same(9223372036854775808 1)", 10),
    ("interval", b"find same(-9223372036854775809 1)", 10),
    ("interval", b"find same(1 9223372036854775808)", 12),
    ("box", b"find same(0 0 5)", 15),
    ("box", b"find same(5 0 0 9)", 9),
    ("box", b"find same(0 9 5 0)", 9),
    ("box", b"find same(0 0 2147483648 9)", 14),
    ("box", b"find same(-2147483649 0 0 9)", 10),
    ("set", b"find holds{128}", 11),
    ("set", b"find holds{1 -1}", 13),
    ("set", b"find holds(1)", 10),
    ("set", b"find holds{1", 12),
    ("set", b"find holds{1)", 12),
)

# Events that are refused as lines or queries
REFUSED_EVENTS = (
    ("interval", b"next 1"),
    ("interval", b"7"),
    ("interval", b"turn"),
    ("interval", b"turn x"),
    ("interval", b"turn 1 2"),
    ("interval", b"turn1"),
    ("interval", b"turn 18446744073709551616"),
    ("interval", b"find 1 2"),
    ("interval", b"seek -1"),
    ("interval", b"move"),
    ("interval", b"move 1 2"),
    ("interval", b"move 1 (0 0)"),
    ("interval", b"move 1 2 (0 0) 3"),
    ("interval", b"move 1 2 (9 5)"),
    ("interval", b"unfind"),
    ("interval", b"sweep"),
    ("interval", b"split 0 llrx"),
    ("interval", b"split 2 llxr"),
    ("interval", b"split 0 (l)"),
    ("interval", b"split 0"),
    ("interval", b"grow 12"),
    ("interval", b"grow ll rr"),
    ("interval", b"grow llRR"),
    ("interval", b"post 0"),
    ("interval", b"post 0 1 2"),
    ("interval", b"enlarge 0 1 (5 3)"),
    ("interval", b"enlarge 0 18446744073709551616 (1 1)"),
    ("interval", b"place 0 (1 1)"),
    ("interval", b"place 0 {1} 0"),
    ("interval", b"open 4 overlaps(0"),
    ("interval", b"open 4"),
    ("interval", b"open x overlaps(0 9)"),
    ("interval", b"open 4 from"),
    ("interval", b"open 4 from x same(0 0)"),
    ("interval", b"open 4 from 1"),
    ("interval", b"open 4 from 0"),
)

# Events that are well-formed, of each word and class, and two lines at once
EVENTS = (
    ("interval", b"enlarge 0 18446744073709551615 (1 1)"),
    ("interval", b"place 0 (-3 14) 18446744073709551615"),
    ("interval", b"place 9(1 1)0"),
    ("interval", b"split 0 llrr"),
    ("interval", b"post 0 1"),
    ("interval", b"grow lrrl"),
    ("interval", b"find 1"),
    ("interval", b"seek 1"),
    ("interval", b"move 1 2 (5 9)"),
    ("interval", b"unfind 1"),
    ("interval", b"sweep 0"),
    ("interval", b"open 4096 overlaps(0 9)"),
    ("interval", b"open 0 overlaps(0 9)"),
    ("interval", b"open 4 from 0 overlaps(0 9)"),
    ("interval", b"open 4 from 1 overlaps(0 9)"),
    ("interval", b" turn 18446744073709551615 "),
    ("interval", b"askmark 1"),
    ("interval", b"take 1"),
    ("interval", b"close 001"),
    ("interval", b"place 0(1 1)0\nturn 1"),
    ("interval", b"place 0 (1 1) 0 sweep 0"),
    ("box", b"place 0 (0 0 5 9) 7"),
    ("box", b"move 1 0 (-1 -1 2 2)"),
    ("box", b"open 2 holds(0 0 0 0)and not same(1 1 1 1)"),
    ("set", b"place 0 {2 1} 3"),
    ("set", b"enlarge 1 2 {}"),
    ("set", b"open 2 from 0 overlaps{2}or(within{127})"),
)

# Lines over a new store, and their answers, worked out by hand
ANSWERED_COMMANDS = (
    ("interval", b"", b""),
    ("interval", b"\n  \n", b""),
    ("interval", b"find", b"refused 21 QueryText 4\n"),
    ("interval", b"open", b"refused 22 Line 4\n"),
    ("interval", b"open 4", b"refused 21 QueryText 6\n"),
    ("interval", b"find overlaps{1}", b"refused 21 QueryText 13\n"),
    ("interval", b"find same(1 2) xor same(3 4)", b"refused 21 QueryText 15\n"),
    ("interval", b"find (same(1 2)", b"refused 21 QueryText 15\n"),
    ("interval", b"find same(1 2) and", b"refused 21 QueryText 18\n"),
    ("interval", b"find overlaps(0", b"refused 21 QueryText 15\n"),
    ("interval", b"find overlaps(3 1)", b"refused 21 QueryText 13\n"),
    ("interval", b"find holds(+1 2)", b"refused 21 QueryText 11\n"),
    ("interval", b"find same ( 1  2 )or not(within(0 9)and overlaps(3 3))", b"found 0\n"),
    ("interval", b"find (same(1 1) or same(2 2)) or same(3 3)", b"found 0\n"),
    ("interval", b"find same(1 1) or (same(2 2) or same(3 3))", b"found 0\n"),
    ("interval", b"delete1", b"refused 22 Line 6\n"),
    ("interval", b"delete 18446744073709551616", b"refused 22 Line 7\n"),
    ("interval", b"insert (5-6) 0", b"refused 22 Line 9\n"),
    ("interval", b"insert (9 5) 0", b"refused 22 Line 7\n"),
    ("interval", b"insert (5 5)", b"refused 22 Line 12\n"),
    ("interval", b"insert (5 5) 0 1", b"refused 22 Line 15\n"),
    ("interval", b"insert (6", b"refused 22 Line 9\n"),
    ("interval", b"insert(5 5)0", b"committed 1\n"),
    ("interval", b"insert (-3 4) 18446744073709551615\n", b"committed 1\n"),
    ("set", b"insert {1 128} 0", b"refused 22 Line 10\n"),
    ("set", b"insert {128} 0", b"refused 22 Line 8\n"),
    ("set", b"find not overlaps{3}", b"found 0\n"),
    ("set", b"find within{}", b"found 0\n"),
    ("box", b"insert (0 0 2147483648 0) 0", b"refused 22 Line 12\n"),
    ("box", b"insert (0 5 0 4) 0", b"refused 22 Line 7\n"),
    ("interval", b"move 5 (0 0)", b"refused 14 NoSuchRow\n"),
    ("interval", b"move 1 (0 0) 1", b"refused 22 Line 13\n"),
    ("interval", b"open 4 from 4 overlaps(0 9)", b"refused 23 FromFuture\n"),
    ("interval", b"open 4 from 0 overlaps(0 9)", b"opened 1\n"),
    ("interval", b"open 4 from x", b"refused 22 Line 12\n"),
    ("interval", b"open 4from 1 overlaps(0 9)", b"refused 21 QueryText 6\n"),
    (
        "interval",
        b"open 0 overlaps(0 9)\nopen 4097 overlaps(0 9)\nopen 4096 overlaps(0 9)\n",
        b"refused 2 BadConfig\nrefused 2 BadConfig\nopened 1\n",
    ),
    (
        "interval",
        b"next 2\nmark 0\nclose 9\ndelete 99\nsweep\n",
        b"refused 16 NoSuchCursor\nrefused 16 NoSuchCursor\nrefused 16 NoSuchCursor\nrefused 14 NoSuchRow\nswept 0\n",
    ),
    (
        "interval",
        b"insert (0 10) 1\nfind overlaps(10 20)\ninsert (6",
        b"committed 1\nfound 1\nrow 1 (0 10) 1\nrefused 22 Line 9\n",
    ),
    ("interval", b"find\nfind overlaps(0 9)", b"refused 21 QueryText 4\nfound 0\n"),
)

# Event lines over a new world, and their answers, worked out by hand
ANSWERED_EVENTS = (
    (
        "interval",
        b"place 0 (1 1) 0\nplace 0 (2 2) 0\nplace 0 (3 3) 0\nplace 0 (1 1",
        b"committed 1\ncommitted 2\ncommitted 3\nrefused 22 Line 12\n",
    ),
    ("interval", b"next 1", b"refused 22 Line 0\n"),
    ("interval", b"7", b"refused 22 Line 0\n"),
    ("interval", b"turn1", b"refused 22 Line 4\n"),
    ("interval", b"turn 1", b"refused 16 NoSuchCursor\n"),
    ("interval", b"turn 18446744073709551616", b"refused 22 Line 5\n"),
    ("interval", b"find 1 2", b"refused 22 Line 7\n"),
    ("interval", b"find 1", b"refused 14 NoSuchRow\n"),
    ("interval", b"seek -1", b"refused 22 Line 5\n"),
    ("interval", b"seek 1", b"refused 20 NoSuchFinder\n"),
    ("interval", b"sweep", b"refused 22 Line 5\n"),
    ("interval", b"split 0 llrx", b"refused 22 Line 8\n"),
    ("interval", b"split 1 lr", b"refused 7 NotHere\n"),
    ("interval", b"grow llrr", b"refused 9 TooFew\n"),
    ("interval", b"grow llRR", b"refused 22 Line 7\n"),
    ("interval", b"enlarge 0 1 (5 3)", b"refused 22 Line 12\n"),
    ("interval", b"place 9 (1 1) 0", b"refused 7 NotHere\n"),
    ("interval", b"move 1 2 (0 0)", b"refused 20 NoSuchFinder\n"),
    ("interval", b"open 4 overlaps(0", b"refused 21 QueryText 17\n"),
    ("set", b"sweep 0\nplace 0 {2 1} 3\n", b"swept 0\ncommitted 1\n"),
)

# Queries as deep as may be, and deeper ones, over sets: how often each part is in a line, and the answer of a new
# store
DEEP = (
    (((1, b"find "), (31, b"not "), (1, b"same{}")), b"found 0\n"),
    (((1, b"find "), (24, b"not "), (1, b"same{}"), (8, b"and same{}")), b"refused 21 QueryText 5\n"),
    (
        ((1, b"open 1 "), (8, b"not(same{}or "), (15, b"not "), (1, b"same{}"), (8, b")")),
        b"opened 1\n",
    ),
    (
        ((1, b"open 1 from 0 "), (12, b"not(same{}and "), (8, b"not "), (12, b"("), (1, b"same{}"), (24, b")")),
        b"refused 21 QueryText 14\n",
    ),
)

# A key of each class, three rows that live while lines are changed, and a query that every key matches
KEYS = {"interval": b"(-3 14)", "box": b"(-3 0 14 5)", "set": b"{1 7 127}"}
ROWS = {
    "interval": (b"(0 9) 1", b"(5 5) 18446744073709551615", b"(-9223372036854775808 3) 0"),
    "box": (b"(0 0 5 9) 1", b"(-1 -1 0 0) 18446744073709551615", b"(1 -2147483648 1 2147483647) 0"),
    "set": (b"{1 7 127} 1", b"{} 18446744073709551615", b"{9 8 1} 0"),
}
ANY_KEY = {"interval": b"same(1 2)or not same(1 2)", "box": b"same(1 2 3 4)or not same(1 2 3 4)", "set": b"holds{}"}

# Queries of which each word counts: with another order of `not`, `and` and `or` other rows would match
QUERIES = {
    "interval": b"within(0 9)and not holds(5 5)or overlaps(2 2)",
    "box": b"within(-9 -9 9 9)and not holds(0 0 0 0)or overlaps(1 1 1 1)",
    "set": b"within{1 7 8 9}and not holds{8}or overlaps{127}",
}
NESTED_QUERIES = {
    "interval": b"not(holds(5 5)and within(5 7))and not same(0 9)",
    "box": b"not(holds(0 0 0 0)and within(-1 -1 0 0))and not same(0 0 5 9)",
    "set": b"not(within{3}and not holds{1})and not same{1 7 127}",
}

# Lines of each class that meet what is there. `@` means a key, `&` and `?` mean queries, and six capitals for a
# number of six digits: `R` of a row that lives, `C` of an open cursor, `F` of an open finder, and `N` for the number of
# commits
LIVE_COMMANDS = (
    b"insert @ 7",
    b"delete RRRRRR",
    b"move RRRRRR @",
    b"open 4 overlaps@",
    b"open 4 from NNNNNN not within @",
    b"next CCCCCC",
    b"mark CCCCCC",
    b"find holds@ or same@ and not overlaps@",
    b"find &",
    b"find ?",
    b"open 1 ?",
    b"delete RRRRRR\nsweep",
    b"mark CCCCCC\nnext CCCCCC",
    b"close CCCCCC",
    b"move RRRRRR @\nnext CCCCCC",
)
LIVE_EVENTS = (
    b"enlarge 0 1 @",
    b"place 0 @ 7",
    b"split 1 llrr",
    b"post 0 1",
    b"grow llrr",
    b"find RRRRRR",
    b"seek FFFFFF",
    b"move FFFFFF 0 @",
    b"unfind FFFFFF",
    b"seek FFFFFF\nsweep 0",
    b"open 4 overlaps@",
    b"open 4 from NNNNNN not within @",
    b"open 1 &",
    b"turn CCCCCC",
    b"askmark CCCCCC\nturn CCCCCC",
    b"take CCCCCC",
    b"close CCCCCC",
)

# The keys of two leaves, four each, and a key that the first one covers
LEAVES = {
    "interval": (b"(0 0)", b"(0 9)", b"(3 4)", b"(9 9)", b"(20 20)", b"(20 29)", b"(25 25)", b"(29 29)"),
    "box": (
        b"(0 0 0 0)",
        b"(0 0 9 9)",
        b"(1 1 2 2)",
        b"(9 9 9 9)",
        b"(20 -9 20 -9)",
        b"(20 -9 29 0)",
        b"(25 -5 26 -4)",
        b"(29 0 29 0)",
    ),
    "set": (b"{1}", b"{1 7 127}", b"{7}", b"{127}", b"{2}", b"{2 8}", b"{8}", b"{}"),
}
COVERED_KEYS = {"interval": b"(3 4)", "box": b"(1 1 2 2)", "set": b"{1 7}"}

# Events of each class that meet two leaves. `@` means a key, and `#` one that page 1 covers
LEAVES_EVENTS = (
    b"enlarge 0 1 @",
    b"enlarge 0 2 @\nplace 2 @ 7",
    b"place 1 # 7",
    b"place 2 # 7",
    b"place 0 # 7",
    b"split 1 llrr",
    b"split 0 llrr",
    b"post 0 1",
    b"grow llrr",
    b"sweep 1",
)
