"""What `sr` writes into a database, sqlite3 reads, and what sqlite3 wrote `sr` reads: posts and users, before and after a restart.

A case is its name, what it has to answer, and a function of the program. What has to come is by hand, after docs/operating.md and docs/clients.md."""
import contextlib
import os
import pathlib
import shutil
import subprocess

from running import Running
from serving import Serving
from stored import ADDED, POSTED, Caller, Poller, Skipped, Store, add_user, refusal, serve_briefly, serving

PAGE = pathlib.Path(__file__).resolve().parents[2] / "docs" / "operating.md"
ADDED_NOW, KNOWN = (0, "added\n", ""), (0, "known\n", "")
FAILED = "error The store failed."
QUOTED = "'); DROP TABLE posts; --"
LONG = "x" * 30_000
ODD_TEXTS = ["", " ", QUOTED, 'a "b" \\ c', "line\nline\r\n\ttab", "nul\0in it", "\x1e\x7f\u2028", "Zoë, ключ, 鍵", "🔑" * 3, LONG]
ODD_WORDS = [text for text in ODD_TEXTS if "\0" not in text]  # no word of a command has that sign
MANY = 66_000  # posts, more than a server keeps that has no store
AT_ONCE, EACH = 10, 10


# What sr writes


def users_once(program):
    with Store() as store:
        told = [add_user(program, store, *pair) for pair in (("s3cret", "ann"), ("s3cret", "bob"), ("t2", "ann"))]
        return told, store.users()


def odd_users(program):
    with Store() as store:
        told = {add_user(program, store, "token " + text, text) for text in ODD_WORDS} | {add_user(program, store, "", "nobody")}
        return told, store.users() == [*(("token " + text, text) for text in ODD_WORDS), ("", "nobody")]


def columns(store, table):
    return store.sql('SELECT name, type, "notnull", pk FROM pragma_table_info(?) ORDER BY cid', table)


def tables(program):
    """The tables of a file that `user` made, that they are STRICT, that numbers of posts never come again, and how a room's last posts are found."""
    with Store() as store:
        add_user(program, store, "t", "n")
        strict = store.sql("SELECT name, strict FROM pragma_table_list WHERE name IN ('users', 'posts') ORDER BY name")
        store.sql(POSTED, "r", "1", "a")
        store.sql("DELETE FROM posts")
        store.sql(POSTED, "r", "1", "b")
        ((*_, plan),) = store.sql("EXPLAIN QUERY PLAN SELECT body FROM posts WHERE room = 'r' ORDER BY n DESC LIMIT 100")
        found = "an index" if plan.startswith("SEARCH posts USING INDEX ") else plan
        return columns(store, "users"), columns(store, "posts"), strict, store.posts(), found, store.is_sound()


TABLES_AS_WRITTEN = (
    [("token", "TEXT", 1, 1), ("name", "TEXT", 1, 0)],
    [("n", "INTEGER", 0, 1), ("room", "TEXT", 1, 0), ("who", "TEXT", 1, 0), ("body", "TEXT", 1, 0)],
    [("posts", 1), ("users", 1)],
    [(2, "r", "1", "b")],
    "an index",
    True,
)


def shell(*words, given=""):
    if not shutil.which("sqlite3"):
        raise Skipped("sqlite3's shell isn't installed")
    done = subprocess.run(["sqlite3", *words], input=given, capture_output=True, text=True)
    return done.stdout if done.returncode == 0 and not done.stderr else f"{done.returncode} {done.stderr}"


def by_the_shell(program):
    """What sqlite3's shell dumps of a file, read into another, gives the same posts and users."""
    with Store() as store, Store() as copied:
        add_user(program, store, "s3cret", "ann")
        with serving(program, store) as server:
            for text in ODD_WORDS:
                Caller(server, "s3cret").told("Post", "r", text)
        schema, dumped = shell(store.path, ".schema"), shell(store.path, ".dump")
        read = shell(copied.path, given=dumped)
        names = [f"CREATE TABLE IF NOT EXISTS {name}(" in schema or f"CREATE TABLE {name}(" in schema for name in ("users", "posts")]
        return names, read, copied.posts() == store.posts() != [], copied.users() == store.users() != [], copied.is_sound()


def posts_written(program):
    """Two clients post by turns, one of which has a token."""
    with Store() as store:
        add_user(program, store, "s3cret", "ann")
        with serving(program, store) as server:
            one, other = Caller(server), Caller(server, "s3cret")
            told = [one.told("Post", "r", "a"), other.told("Post", "s", "b"), one.told("Post", "r", "c")]
        return told, store.posts(), store.is_sound()


POSTS_WRITTEN = [None] * 3, [(1, "r", "1", "a"), (2, "s", "ann", "b"), (3, "r", "1", "c")], True


def odd_posts(program):
    """Each text as it was posted, in the database and in `History`."""
    with Store() as store:
        with serving(program, store) as server:
            caller = Caller(server)
            told = [caller.told("Post", "room " + text[:50], text) for text in ODD_TEXTS]
            recalled = [caller.told("History", "room " + text[:50], 1) for text in ODD_TEXTS]
        rows = [("room " + text[:50], text) for text in ODD_TEXTS]
        kept = [(room, body) for _, room, _, body in store.posts()]
        return set(told), recalled == [[text] for text in ODD_TEXTS], kept == rows


def at_once(program):
    """Many clients post at once: each post is kept once, and those of each client in order."""
    with Store() as store:
        with serving(program, store) as server:
            callers = [Caller(server) for _ in range(AT_ONCE)]
            for who, caller in enumerate(callers):
                caller.call_all("Post", [["r", f"{who} {n}"] for n in range(EACH)])
            told = [caller.ending() for caller in callers for _ in range(EACH)]
        rows = [body.split() for _, _, _, body in store.posts()]
        in_order = all([int(n) for of, n in rows if of == str(who)] == [*range(EACH)] for who in range(AT_ONCE))
        return set(told), len(rows), in_order


# What sqlite3 wrote


POSTS = [("r", "eve", "first"), ("s", "eve", "second"), ("r", "bob", "third")]


def rows_read(program):
    """Over WebSockets and by polls: the room's posts, none of a room without posts, and the name of each token."""
    with Store() as store:
        store.make(POSTS, [("t1", "ann"), ("t2", "bob")])
        with serving(program, store, rows=3) as server:
            told = []
            for caller in (Caller(server), Caller(server, "t1"), Poller(server, "t2")):
                caller.told("Join", "r")
                told.append([caller.told("History", "r", 2), caller.told("History", "x", 9), caller.told("Post", "r", "hi"), caller.heard])
            refused = refusal(server, "t3")
        return told, refused, store.posts()[3:]


ROWS_READ = (
    [
        [["first", "third"], [], None, [("Posted", "r", "1", "hi")]],
        [["third", "hi"], [], None, [("Posted", "r", "ann", "hi")]],
        [["hi", "hi"], [], None, [("Posted", "r", "bob", "hi")]],
    ],
    401,
    [(4, "r", "1", "hi"), (5, "r", "ann", "hi"), (6, "r", "bob", "hi")],
)


def rows_of_the_log(program):
    """What another process wrote that was killed is in the log beside the file alone."""
    with Store() as store:
        store.make(POSTS[:1])
        store.write_and_die(POSTED, *POSTS[1:])
        store.write_and_die(ADDED, ("t1", "ann"))
        known = add_user(program, store, "t1", "bob")
        with serving(program, store, rows=3) as server:
            return known, Caller(server, "t1").told("History", "r", 9)


def last_posts(program):
    """Of rooms and limits: a room's last n, in order, however many there are."""
    with Store() as store:
        store.make([("r" if n % 2 else "s", "eve", str(n)) for n in range(1, 301)])
        with serving(program, store, rows=300) as server:
            caller = Caller(server)
            lists = [caller.told("History", "r", n) for n in (0, 1, 100)]
            return lists[0], lists[1], lists[2] == [str(n) for n in range(101, 300, 2)], caller.told("History", "r", 101)


def more_than_memory_keeps(program):
    with Store() as store:
        store.make([("old" if n < 3 else "new", "eve", str(n)) for n in range(MANY)])
        with serving(program, store, rows=MANY) as server:
            return Caller(server).told("History", "old", 100)


def taken_away(program):
    """Posts and users that sqlite3 deletes between two servers are gone, and a number isn't given again."""
    with Store() as store:
        store.make(POSTS, [("t1", "ann"), ("t2", "bob")])
        with serving(program, store, rows=3) as server:
            Caller(server, "t1").told("Post", "r", "fourth")
        store.sql("DELETE FROM posts WHERE n > 1")
        store.sql("DELETE FROM users WHERE name = ?", "ann")
        store.sql("VACUUM")
        with serving(program, store, rows=1) as server:
            caller = Caller(server, "t2")
            told = refusal(server, "t1"), caller.told("Post", "r", "fifth"), caller.told("History", "r", 9)
        return told, store.posts(), store.is_sound()


OTHERS = """
CREATE TABLE notes(text); INSERT INTO notes VALUES ('kept'); CREATE INDEX by_text ON notes(text);
CREATE VIEW latest AS SELECT max(n) AS n FROM posts; CREATE INDEX by_who ON posts(who);
"""


def beside_others(program):
    """Another table, a view and an index on the posts are kept, and the index has what `sr` writes."""
    with Store() as store:
        store.make(POSTS, more=OTHERS)
        with serving(program, store, rows=3) as server:
            told = Caller(server).told("Post", "r", "fourth")
        indexed = store.sql("SELECT n FROM posts INDEXED BY by_who WHERE who = '1'")
        return told, store.sql("SELECT text FROM notes"), store.sql("SELECT n FROM latest"), indexed, store.is_sound()


# Tables of another shape


def another_posts(program):
    """Over a table of posts of another shape what is posted is refused, and said to nobody. All else is done."""
    with Store() as store:
        store.sql("CREATE TABLE posts(n)")
        added = add_user(program, store, "t1", "ann")
        with serving(program, store) as server:
            member, caller = Caller(server), Caller(server, "t1")
            member.told("Join", "r")
            told = [caller.told("Post", "r", "a"), caller.told("History", "r", 1), caller.told("Join", "r"), caller.told("Add", 2, 3)]
            again = member.told("Add", 2, 3), member.heard
            complaints = server.complaints()
        return added, told, again, complaints, store.sql("SELECT n FROM posts")


def another_users(program):
    """Over a table of users of another shape no token can be looked up, which is a fault of the server, and no user added."""
    with Store() as store:
        store.sql("CREATE TABLE users(x)")
        status, out, _ = add_user(program, store, "t1", "ann")
        with serving(program, store) as server:
            return status, out, refusal(server, "t1"), Caller(server).told("Post", "r", "a"), server.complaints()


# A restart


def login(program):
    """As README.md has it: a user is added, the server begun, and the user's client is known by its name, before a restart and after it."""
    script = b'call Join ["r"]\nwait\ncall Post ["r","PUT"]\nwait\ncall History ["r",10]\n'
    with Store() as store:
        told = [add_user(program, store, "s3cret", "ann")]
        for rows, text in ((0, b"hello"), (1, b"again")):
            with serving(program, store, rows=rows) as server:
                with Running(program, ["--token", "s3cret", server.base], script.replace(b"PUT", text)) as client:
                    told.append(client.ended())
        return told, serve_briefly(program, store)


def printed(text, recalled):
    return 0, ["shaken", "call 1", "ended 1 void", "call 2", f'got Posted ["r","ann","{text}"]', "ended 2 void", "call 3", f"ended 3 result {recalled}"]


LOGIN = [ADDED_NOW, printed("hello", '["hello"]'), printed("again", '["hello","again"]')], (0, "serving 2\n", [])


def commands():
    """Each command that docs/operating.md shows, and what it prints there."""
    found = []
    for line in PAGE.read_text().splitlines():
        if not line.startswith("    "):
            found.append(None)
        elif line.strip().startswith("$ "):
            found.append((line.strip()[2:], []))
        elif found[-1:] != [None]:
            found[-1][1].append(line.strip())
    return [each for each in found if each]


def in_shell(command, store, program):
    """What a command prints, in the folder of the store, where `sr` is the program."""
    words = ["sh", "-c", f'sr() {{ "$0" "$@"; }}; {command}', program]
    done = subprocess.run(words, cwd=store.folder, stdin=subprocess.DEVNULL, stdout=subprocess.PIPE, stderr=subprocess.STDOUT)
    return done.stdout.decode().splitlines()


def by_the_page(program):
    """Each command of docs/operating.md, in its order, prints what the page shows. The server of the page ends as the first of sqlite3 begins."""
    shell("--version")
    wrong = []
    with Store() as store, contextlib.ExitStack() as until:
        for command, shown in commands():
            if command.startswith("sr serve"):
                server = until.enter_context(serving(program, store, rows=int(shown[-1].split()[1])))
                continue
            if "sqlite3" in command:
                until.close()
            printed = in_shell(command.replace(":8080", f":{server.port}") if "sr client" in command else command, store, program)
            wrong += [(command, printed)] if printed != shown else []
        left = store.posts(), store.users(), store.beside()["saved.db"]
        store.path = os.path.join(store.folder, "saved.db")
        return wrong, *left, store.posts(), serve_briefly(program, store)


LOBBY = [(1, "lobby", "ann", "hello")]


def told_to_a_user(program):
    """Each connection of a user gets what is told to it, and no other."""
    with Store() as store:
        store.make(users=[("t1", "ann"), ("t2", "ann"), ("t3", "bob")])
        with serving(program, store) as server:
            callers = [Caller(server, token) for token in ("t1", "t2", "t3", None)]
            callers[2].told("Tell", "ann", "hi")
            callers[2].told("Tell", "cid", "nobody")
            for caller in callers:
                caller.told("Add", 1, 1)
            return [caller.heard for caller in callers]


def without_a_store(program):
    """A server that isn't given a file writes none, and knows nobody."""
    with Store() as store:
        with Serving(program, begun={"cwd": store.folder}) as server:
            return Caller(server).told("Post", "r", "a"), refusal(server, "t1"), store.beside()


CASES = [
    ("a user is added once", ([ADDED_NOW, KNOWN, ADDED_NOW], [("s3cret", "ann"), ("t2", "ann")]), users_once),
    ("any words are tokens and names", ({ADDED_NOW}, True), odd_users),
    ("the tables of a new file", TABLES_AS_WRITTEN, tables),
    ("sqlite3's shell reads all", ([True, True], "", True, True, True), by_the_shell),
    ("posts are rows, with who posted them", POSTS_WRITTEN, posts_written),
    ("any texts are posts", ({None}, True, True), odd_posts),
    ("many post at once", ({None}, AT_ONCE * EACH, True), at_once),
    ("posts and users that sqlite3 wrote", ROWS_READ, rows_read),
    ("posts and users of a log that was left", (KNOWN, ["first", "third"]), rows_of_the_log),
    ("a room's last posts", ([], ["299"], True, "error Wrong arguments."), last_posts),
    ("more posts than a server keeps in memory", ["0", "1", "2"], more_than_memory_keeps),
    ("posts and users that sqlite3 took away", ((401, None, ["first", "fifth"]), [(1, "r", "eve", "first"), (5, "r", "bob", "fifth")], True), taken_away),
    ("a database that has more than the two tables", (None, [("kept",)], [(4,)], [(4,)], True), beside_others),
    ("posts of another shape", (ADDED_NOW, [FAILED, FAILED, None, 5], (5, []), [], []), another_posts),
    ("users of another shape", (6, "", 500, None, []), another_users),
    ("a login, and a restart", LOGIN, login),
    ("the commands of docs/operating.md", ([], LOBBY, [], "0o600", LOBBY, (0, "serving 1\n", [])), by_the_page),
    ("what is told to a user", [[("Told", "bob", "hi")], [("Told", "bob", "hi")], [], []], told_to_a_user),
    ("no file without a store", (None, 401, {}), without_a_store),
]
