"""Files that can't be a database, can't be had, or have no room: what `sr` says of them, and that it loses nothing. And whose the files are.

A case is its name, what it has to answer, and a function of the program. What has to come is by hand, after docs/operating.md and the exit
statuses of docs/protocol.md."""
import contextlib
import os
import resource
import shutil
import sqlite3
import subprocess
import tempfile

from stored import LOCKED, POSTED, Caller, Skipped, Store, add_user, serve_briefly, serving

FAILED = "error The store failed."
NOBODY = 65534
OWNERS = "0o600"
SMALL = 2_097_152  # bytes of a disk, or that a process may write to one file
PIECE = 65_536
MOST_POSTS = 5_000
POST = "x" * 4_000
ROOM_LATER = 20  # posts


# Files that can't be had


def refused(prepare, reason=""):
    """What `serve` and `user` say of the store that is prepared, in a folder of its own: they answer 6, write nothing, and tell the file and why."""

    def case(program):
        with Store() as store, prepare(store) as options:
            told = serve_briefly(program, store, **(options or {})), add_user(program, store, "t", "n", **(options or {}))
            return [(status, out, is_told(error, store, reason)) for status, out, error in told]

    return case


def is_told(error, store, reason):
    """Whether standard error has one line, with the file and a reason that has these words."""
    lines = error if isinstance(error, list) else error.splitlines()
    told = len(lines) == 1 and lines[0].startswith(f"sr: {store.path}: ") and reason in lines[0][len(f"sr: {store.path}: ") :]
    return told or lines


REFUSED = [(6, "", True)] * 2


@contextlib.contextmanager
def no_database(store):
    store.write(b"This is no database.\n" * 1_000)
    yield
    assert store.read() == b"This is no database.\n" * 1_000


@contextlib.contextmanager
def cut_off(store):
    """A database of which the second half is lost."""
    store.make([("r", "eve", POST)] * 100)
    store.write(store.read()[: os.path.getsize(store.path) // 2])
    yield


@contextlib.contextmanager
def no_folder(store):
    store.path = os.path.join(store.folder, "none", "chat.db")
    yield


@contextlib.contextmanager
def is_folder(store):
    os.mkdir(store.path)
    yield


@contextlib.contextmanager
def no_file(store):
    store.path = ""
    yield


@contextlib.contextmanager
def not_allowed(store):
    """A file that its reader may not write. What root may nobody forbids, so that the program is another's then."""
    store.make([("r", "eve", "a")])
    os.chmod(store.path, 0o444)
    os.chmod(store.folder, 0o777)
    yield {"user": NOBODY} if os.getuid() == 0 else {}


@contextlib.contextmanager
def not_seen(store):
    """A file that only its owner may read, who is another."""
    if os.getuid() != 0:
        raise Skipped("only root can run it as another user")
    store.make([("r", "eve", "a")])
    os.chmod(store.path, 0o600)
    os.chmod(store.folder, 0o777)
    yield {"user": NOBODY}


@contextlib.contextmanager
def written_by_another(store):
    store.make()
    with contextlib.closing(store.connect()) as other:
        other.execute("BEGIN EXCLUSIVE")
        yield


@contextlib.contextmanager
def read_by_another(store):
    """A connection that has read once, and is idle, as a shell that was left open."""
    store.make()
    store.sql("PRAGMA journal_mode=WAL")
    with contextlib.closing(store.connect()) as other:
        other.execute("SELECT count(*) FROM posts").fetchall()
        yield


@contextlib.contextmanager
def served_by_another(program, store):
    add_user(program, store, "s3cret", "ann")
    with serving(program, store) as server:
        caller = Caller(server, "s3cret")
        caller.told("Post", "r", "a")
        yield caller


def beside_a_server(program):
    """Neither another server, nor `user`, nor sqlite3 gets in, and the one that serves goes on."""
    with Store() as store:
        with served_by_another(program, store) as caller:
            told = serve_briefly(program, store), add_user(program, store, "t", "n")
            told = [(status, out, is_told(error, store, LOCKED)) for status, out, error in told]
            try:
                read = store.sql("SELECT count(*) FROM posts", timeout=0)
            except sqlite3.OperationalError as why:
                read = str(why)
            goes_on = caller.told("Post", "r", "b"), caller.told("History", "r", 9)
        return told, read, goes_on, store.users(), store.is_sound()


def had_again(program):
    """What was locked can be had as soon as it isn't any more."""
    with Store() as store:
        with written_by_another(store):
            first = add_user(program, store, "t", "n")[0]
        return first, add_user(program, store, "t", "n"), serve_briefly(program, store)


def output_is_full(program):
    """A user whose line can't be written is added all the same, and a server that can't say that it serves has closed its file."""
    with Store() as store, open("/dev/full", "wb") as full:
        statuses = add_user(program, store, "t", "n", stdout=full)[0], serve_briefly(program, store, stdout=full)[0]
        return statuses, alone(store)


def alone(store):
    """The bodies, the users and the soundness of the file without what may lie beside it."""
    with Store() as copied:
        copied.write(store.read())
        return [body for _, _, _, body in copied.posts()], copied.users(), copied.is_sound()


# Whose they are


def only_the_owners(program):
    """The files that a server makes, and what lies beside them, may be read by their owner alone, whatever the process lets others do."""
    seen = {}
    for mask in (0o022, 0o000):
        with Store() as store:
            with serving(program, store, preexec_fn=lambda: os.umask(mask)) as server:
                Caller(server).told("Post", "r", "a")
                seen.update(store.beside())
        with Store() as store:
            add_user(program, store, "t", "n", preexec_fn=lambda: os.umask(mask))
            seen.update(store.beside())
    return seen["chat.db"], set(seen.values())


def as_it_was(program):
    """A file that was there keeps what others may do with it."""
    with Store() as store:
        store.make()
        os.chmod(store.path, 0o640)
        add_user(program, store, "t", "n")
        with serving(program, store) as server:
            Caller(server).told("Post", "r", "a")
            return store.beside()["chat.db"]


def by_a_link(program):
    """A symbolic link is followed to a file that is there, and makes none."""
    with Store() as store, Store() as other:
        os.symlink(other.path, store.path)
        status, out, error = add_user(program, store, "t", "n")
        refused_first = status, out, is_told(error, store, ""), other.beside()
        other.write(b"")
        told = add_user(program, store, "t", "n"), other.users()
        with serving(program, store) as server:
            return refused_first, told, Caller(server, "t").told("Post", "r", "a")


def by_root(program):
    """Root adds a user to a file that is another's, who serves it before and after that."""
    if os.getuid() != 0:
        raise Skipped("only root can run it as another user")
    with Store() as store:
        os.chmod(store.folder, 0o777)
        with serving(program, store, user=NOBODY) as server:
            Caller(server).told("Post", "r", "a")
        added = add_user(program, store, "t", "n")
        with serving(program, store, rows=1, user=NOBODY) as server:
            return added, Caller(server, "t").told("History", "r", 9)


def copied_with_its_log(program):
    """After a kill a copy of the file and of what lies beside it has all of it."""
    with Store() as store, Store() as copied:
        with serving(program, store) as server:
            Caller(server).told("Post", "r", "a")
        for name in os.listdir(store.folder):
            shutil.copy(os.path.join(store.folder, name), copied.folder)
        return copied.posts(), copied.is_sound(), serve_briefly(program, store)


def copied_alone(program):
    """After an end in order of either command the file has all of it, and can be copied by itself."""
    with Store() as store:
        store.make([("r", "eve", "a")])
        store.write_and_die(POSTED, ("r", "eve", "b"))
        added = add_user(program, store, "t", "n"), alone(store)
        store.write_and_die(POSTED, ("r", "eve", "c"))
        return added, serve_briefly(program, store), alone(store)


# No room


def filled(caller):
    """How many posts were kept until one was refused. Others are done meanwhile, and what was kept is recalled."""
    for count in range(MOST_POSTS):
        if (told := caller.told("Post", "r", f"{count} {POST}")) is not None:
            last = [text.split()[0] for text in caller.told("History", "r", 3)]
            return count, [told, caller.told("Add", 2, 3), last == [str(n) for n in range(count - 3, count)]]
    return MOST_POSTS, "it was never full"


def goes_on(store, server, make_room):
    """Fills it, makes room, posts again, and looks what is in it afterwards."""
    caller = Caller(server)
    count, meanwhile = filled(caller)
    make_room()
    later = [caller.told("Post", "r", f"{count + n} {POST}") for n in range(ROOM_LATER)]
    complaints = server.complaints()
    server.__exit__()
    kept = [body.split()[0] for _, _, _, body in store.posts()]
    return meanwhile, set(later), kept == [str(n) for n in range(count + ROOM_LATER)], store.is_sound(), complaints


WENT_ON = [FAILED, 5, True], {None}, True, True, []


def no_more_may_be_written(program):
    """A process that may write so many bytes to a file, and then more. The signal that comes of it is passed over, as Python does."""
    with Store() as store:
        with serving(program, store, restore_signals=False) as server:
            limit = lambda size: resource.prlimit(server.process.pid, resource.RLIMIT_FSIZE, (size, resource.RLIM_INFINITY))  # noqa: E731
            limit(SMALL)
            return goes_on(store, server, lambda: limit(resource.RLIM_INFINITY))


@contextlib.contextmanager
def small_disk():
    """A folder that has no more room than this."""
    with tempfile.TemporaryDirectory(prefix="sr-store-") as folder:
        words = ["mount", "-t", "tmpfs", "-o", f"size={SMALL * 4}", "tmpfs", folder]
        if os.getuid() != 0 or subprocess.run(words, stderr=subprocess.DEVNULL).returncode != 0:
            raise Skipped("only root may mount a small disk")
        try:
            yield folder
        finally:
            subprocess.run(["umount", "-l", folder])


def disk_is_full(program):
    with small_disk() as folder, open(os.path.join(folder, "ballast"), "wb") as ballast:
        ballast.write(bytes(SMALL * 2))
        ballast.flush()
        store = Store(folder)
        with serving(program, store) as server:
            return goes_on(store, server, lambda: os.truncate(ballast.name, 0))


def disk_is_full_at_once(program):
    """Where a new database has no room, neither command begins, and with room again both do."""
    with small_disk() as folder, open(os.path.join(folder, "ballast"), "wb") as ballast:
        with contextlib.suppress(OSError):
            while True:
                os.write(ballast.fileno(), bytes(PIECE))
        store = Store(folder)
        told = serve_briefly(program, store), add_user(program, store, "t", "n")
        os.truncate(ballast.name, 0)
        again = serve_briefly(program, store), add_user(program, store, "t", "n")
        return [(status, out, is_told(error, store, "")) for status, out, error in told], again, store.users()


def disk_may_not_be_written(program):
    with small_disk() as folder:
        store = Store(folder)
        store.make([("r", "eve", "a")])
        subprocess.run(["mount", "-o", "remount,ro", folder], check=True)
        told = serve_briefly(program, store), add_user(program, store, "t", "n")
        return [(status, out, is_told(error, store, "")) for status, out, error in told]


ALONE = (((0, "added\n", ""), (["a", "b"], [("t", "n")], True)), (0, "serving 3\n", []), (["a", "b", "c"], [("t", "n")], True))
BEGAN = (0, "serving 0\n", []), (0, "added\n", "")
CASES = [
    ("a file that is no database", REFUSED, refused(no_database, "database")),
    ("a database that is cut off", REFUSED, refused(cut_off, "database")),
    ("a folder that isn't there", REFUSED, refused(no_folder)),
    ("a folder", REFUSED, refused(is_folder)),
    ("a file without a name", REFUSED, refused(no_file)),
    ("a file that may not be written", REFUSED, refused(not_allowed)),
    ("a file that may not be read", REFUSED, refused(not_seen)),
    ("a disk that may not be written", REFUSED, disk_may_not_be_written),
    ("a file that another writes", REFUSED, refused(written_by_another, LOCKED)),
    ("a file that another has read", REFUSED, refused(read_by_another, LOCKED)),
    ("a file that another serves", (REFUSED, LOCKED, (None, ["a", "b"]), [("s3cret", "ann")], True), beside_a_server),
    ("a file that another had", (6, (0, "added\n", ""), (0, "serving 0\n", [])), had_again),
    ("the output is full", ((4, 4), ([], [("t", "n")], True)), output_is_full),
    ("files are their owner's alone", (OWNERS, {OWNERS}), only_the_owners),
    ("a file that was there keeps its mode", "0o640", as_it_was),
    ("a link", ((6, "", True, {}), ((0, "added\n", ""), [("t", "n")]), None), by_a_link),
    ("a file that is another's", ((0, "added\n", ""), ["a"]), by_root),
    ("a copy after a kill", ([(1, "r", "1", "a")], True, (0, "serving 1\n", [])), copied_with_its_log),
    ("a file after an end in order", ALONE, copied_alone),
    ("no more may be written to a file", WENT_ON, no_more_may_be_written),
    ("the disk is full", WENT_ON, disk_is_full),
    ("the disk is full at once", (REFUSED, BEGAN, [("t", "n")]), disk_is_full_at_once),
]
