"""The script of crates/ht_hubs, for acceptance/hubs_model.py: cases by hand, and random ones from a fixed seed. What is answered is no
matter of this file. crates/ht_hubs/src/main.rt has the words of a script."""

METHODS_DO_THEIR_WORK = """
call Echo 0 'grüße : go
call Echo 0 null : go
call Add 0 -3 45 : go
call Add 0 18446744073709551615 0 : go
call Add 0 18446744073709551615 1 : go
call Add 0 -9223372036854775808 0 : go
call Add 0 -9223372036854775808 -1 : go
call Add 0 18446744073709551615 -9223372036854775808 : go
stream Count 0 0 : go
stream Count 0 3 : go / go / go / go
call Sum 1 : go / uploaded
call Sum 1 : go / item 5 / item -7 / uploaded
call Sum 1 : go / item 5 / broken gone
call Sum 1 : go / item 5 / item '5
call Sum 1 : go / item null
call Sum 1 : go / item 18446744073709551615 / item 1
call Sum 1 : go / item 18446744073709551615 / item -9223372036854775808 / uploaded
call Slow 0 0 'done : go
call Slow 0 2 null : go / go / go
call Fail 0 'No. : go
call Fail 0 ' : go
call Ask 0 'Confirm 7 : go / asked result 7
call Ask 0 'f 'x : go / asked error no
call Ask 0 'g null : go / asked void
notify Add 0 1 2 : go
"""

IS_REFUSED = """
call echo 0 1 : go
notify Confirm 0 1 : go
call Join 2 'r : go
call Ech 0 1 : go
stream Echoes 0 1 : go
stream Echo 0 1 : go
stream Add 3 : go
stream Sum 1 : go
stream Slow 0 1 1 : go
stream Fail 0 5 : go
stream Ask 1 't 1 : go
call Count 0 3 : go
notify Count 1 'x : go
call Echo 0 : go
call Echo 0 1 2 : go
call Echo 1 1 : go
call Add 0 1 : go
call Add 0 1 2 3 : go
call Add 0 1 '2 : go
notify Add 0 null 2 : go
call Add 2 1 2 : go
stream Count 0 : go
stream Count 0 1 1 : go
stream Count 0 -1 : go
stream Count 0 1000001 : go
stream Count 0 '1 : go
stream Count 1 1 : go
call Sum 0 : go
call Sum 2 : go
call Sum 1 1 : go
call Slow 0 1 : go
call Slow 0 1 2 3 : go
call Slow 0 -1 0 : go
call Slow 0 1000001 0 : go
call Slow 0 18446744073709551615 0 : go
call Slow 0 '1 0 : go
call Slow 1 1 0 : go
call Fail 0 : go
call Fail 0 5 : go
call Fail 0 'a 'b : go
call Fail 1 'a : go
call Ask 0 't : go
call Ask 0 1 't : go
call Ask 0 't 1 2 : go
call Ask 1 't 1 : go
"""

A_CLIENT_ANSWERS = """
call Confirm 0 5 : go
notify Confirm 0 'x : go
stream Confirm 0 5 : go
stream Confirm 1 : go
call Confirm 0 : go
call Confirm 0 1 2 : go
call Confirm 1 1 : go
call confirm 0 1 : go
stream Count 0 1 : go
notify Posted 0 'r 'Ann 'hi : go
call Confirmed 8 : go
stream Told 2 null : go
"""

A_COUNTER_COUNTS = """
call Next 0 : go
notify Next 0 : go
stream next 0 : go
call Count 0 1 : go
stream Next 0 : go / go / go
"""

# A room's name of 256 bytes, which are fewer characters.
LONGEST = "ü" * 100 + "r" * 56

# A method of rooms with right arguments, and how many deeds it has.
DOES_ITS_DEEDS = [
    ("Join", "'r", 1),
    ("Leave", "'r", 1),
    ("Post", "'r 'hi", 2),
    ("Tell", "'bob 'hi", 1),
    ("History", "'r 0", 1),
    ("History", "'r 10", 1),
    ("History", "'r 100", 1),
    ("Join", "'", 1),
    ("Join", "'" + LONGEST, 1),
    ("Leave", "'" + LONGEST, 1),
    ("Post", f"'{LONGEST} 'hi", 2),
    ("History", f"'{LONGEST} 1", 1),
    ("Tell", f"'{LONGEST}s 'hi", 1),
]

HAS_WRONG_ARGUMENTS = [
    ("Join", ""),
    ("Join", "1"),
    ("Join", "'r 's"),
    ("Leave", ""),
    ("Leave", "1"),
    ("Post", "'r"),
    ("Post", "'r 1"),
    ("Post", "1 'hi"),
    ("Post", "'r 'hi 'x"),
    ("Tell", "'bob"),
    ("Tell", "1 'hi"),
    ("Tell", "'bob 1"),
    ("History", "'r"),
    ("History", "'r 101"),
    ("History", "'r -1"),
    ("History", "'r '1"),
    ("History", "1 1"),
    ("Join", f"'{LONGEST}s"),
    ("Join", "'" + "r" * 257),
    ("Leave", f"'{LONGEST}s"),
    ("Post", f"'{LONGEST}s 'hi"),
    ("History", f"'{LONGEST}s 1"),
    ("History", f"'{LONGEST}s 101"),
]

IS_NO_METHOD = ["join", "JOIN", "Posted", "Told", "Joins", "Echo", ""]

IS_TESTED_IN_ORDER = [("Join", "'r"), ("Leave", "'r"), ("Post", "'r 'hi"), ("Tell", "'bob 'hi"), ("History", "'r 1")]

# How many calls by chance are made of a registry and of a keeper, and how many connections join how many of all groups.
CALLS_OF_GROUPS = 3_000
CALLS_OF_KEEPER = 700
NAMES = ["'", "'1", "'2", "'3"]
CONNECTIONS = 7
MANY, JOINED, GROUPS, USERS = 10_000, 60, 2_000, 100

A_KEEPER = """note a keeper fails at the calls 0, 2 and 3, and these change nothing
keeper new - 3,0,2
keeper rows
keeper rows
keeper log a a a
keeper add a a
keeper rows
keeper add a a
note three rows of two rooms, and a user who is added once
keeper new - -
keeper log r ann a
keeper log s ann b
keeper log r ann c
keeper history r 1
keeper history r 10
keeper history r 0
keeper history x 10
keeper each t1 ann s d
keeper user t1
keeper rows
note so it is of one in a database
database new
database rows
database log r 1 a
database log s 1 b
database log r 1 c
database rows
database history r 1
database history r 10
database history r 0
database history x 10
database history r 4294967295
database user t1
database add t1 ann
database add t1 bob
database user t1
database user t
database each t1 ann s d
database rows
note a new one has nothing of the last
database new
database rows
database user t1
"""

NO_ACTIONS = """note words that are no actions
calc call Echo 0 1
calc call Echo 0 1 : gone
calc ask Echo 0 1 : go
calc call Echo 0 one : go
calc call Echo 0 18446744073709551616 : go
count rooms 1 call Join 0 'r
groups join r 1
groups join 'r one
groups add 'r 1
keeper history r most
keeper lag r ann a
database copy
database lag r ann a
"""


def on(hub, rows):
    return [f"{hub} {row}" for row in rows.split("\n") if row]


def call_of_rooms(kind, target, uploads, arguments, turns="go"):
    return f"rooms {kind} {target} {uploads}{' ' if arguments else ''}{arguments} : {turns}"


def rooms_do_their_deeds():
    """All deeds and then the ending, and each deed in turn failing."""
    for target, arguments, deeds in DOES_ITS_DEEDS:
        for kind in ("call", "notify"):
            for done in range(deeds):
                yield call_of_rooms(kind, target, 0, arguments, " / ".join(["go", *["done 7"] * done, "failed"]))
            yield call_of_rooms(kind, target, 0, arguments, " / ".join(["go", *["done 7"] * deeds]))


def rooms_refuse():
    for target, arguments in HAS_WRONG_ARGUMENTS:
        for kind in ("call", "stream"):
            yield call_of_rooms(kind, target, 0, arguments)
    for target in IS_NO_METHOD:
        for kind in ("call", "notify", "stream"):
            yield call_of_rooms(kind, target, 1, "'r")


def rooms_test_in_order():
    for target, arguments in IS_TESTED_IN_ORDER:
        for kind, uploads in (("stream", 0), ("stream", 1), ("call", 1)):
            yield call_of_rooms(kind, target, uploads, arguments)


def chances(count):
    """A row of numbers that look random (MMIX's, by Knuth)."""
    state = 1
    for _ in range(count):
        state = (state * 6_364_136_223_846_793_005 + 1_442_695_040_888_963_407) % 2**64
        yield state


def random_groups():
    yield "groups new " + " ".join(NAMES)
    for chance in chances(CALLS_OF_GROUPS):
        pair = f"{NAMES[(chance >> 40) % len(NAMES)]} {(chance >> 50) % CONNECTIONS}"
        action = (chance >> 33) % 16
        if action < 7:
            yield f"groups join {pair}"
        elif action < 11:
            yield f"groups remove {pair}"
        elif action < 15:
            yield f"groups name {pair}"
        else:
            yield f"groups gone {(chance >> 50) % CONNECTIONS}"


def many_groups():
    some = ["groups members '", "groups members '17", f"groups members '{USERS - 1}", f"groups members '{GROUPS - 1}"]
    yield "groups new"
    yield f"groups fill {MANY} {JOINED} {GROUPS} {USERS}"
    yield f"groups sizes {GROUPS}"
    yield from some
    yield f"groups empty {MANY}"
    yield f"groups sizes {GROUPS}"
    yield from some


# Connection 0 is in the groups 0, 31, 62 .. up to the most; a 257th, one more in place of another, and one that is there already.
A_257TH_GROUP = """groups new 'x '31 'y
groups fill 1 255 8000 1
groups join 'x 0
groups join 'y 0
groups join 'x 0
groups join '31 0
groups join 'y 0
groups remove '31 0
groups join 'y 0
groups join '31 0
groups remove '31 0
groups join 'x 0
groups join 'x 1
groups name 'x 0
groups gone 0
groups join '31 0
groups join 'y 0
groups sizes 8000
groups new
groups fill 5 300 1000 7
groups fill 5 300 1000 7
groups sizes 1000
""".splitlines()


def random_keeper(keeper):
    for call, chance in enumerate(chances(CALLS_OF_KEEPER)):
        chance >>= 33
        first, second = chance % 3, chance // 3 % 5
        lines = [
            f"{keeper} log room{first} name{call} text{call}",
            f"{keeper} history room{first} {second}",
            f"{keeper} user token{second}",
            f"{keeper} add token{second} name{call}",
            f"{keeper} rows",
        ]
        yield lines[chance // 15 % 5]


def script():
    parts = [
        ["note each method of the calculator does its work", *on("calc", METHODS_DO_THEIR_WORK), "count calc 1000001 stream Count 0 1000000"],
        ["note what is wrong is refused", *on("calc", IS_REFUSED)],
        ["note a client answers", *on("client", A_CLIENT_ANSWERS)],
        ["note a counter counts", *on("counter", A_COUNTER_COUNTS), "count counter 1000001 stream Next 0"],
        ["note deed after deed, and then the ending; and the failure of each deed in turn", *rooms_do_their_deeds()],
        ["note wrong arguments, and targets that are no method of rooms", *rooms_refuse()],
        ["note the target is tested first, then whether the call is a Stream, and then its uploads and arguments", *rooms_test_in_order()],
        ["note groups and users: calls by chance", *random_groups()],
        ["note ten thousand connections join and go", *many_groups()],
        ["note a connection is in 256 groups at most", *A_257TH_GROUP],
        ["note a keeper: calls by chance; of two users with one token the first counts",
         "keeper new token1:name10,token1:name11,token2:name12 -", *random_keeper("keeper"), "keeper copy"],
        ["note a keeper in a database, once there is one: calls by chance", "database rows", "database new", *random_keeper("database")],
    ]
    return "".join(line + "\n" for part in parts for line in part) + A_KEEPER + NO_ACTIONS
