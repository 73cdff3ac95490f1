#!/usr/bin/env python3
"""Looks which program bin/sr runs, what bin/release makes, and when it says that a release differs, in a tree of four crates, where
programs are scripts that print their names, and the kit is three scripts.

    acceptance/release.py

The sum over the sources is taken here too, by Python's hashlib, as bin/sources tells how. The last line is 'N passed, N failed'; the
status is 0 if none failed."""
import datetime
import hashlib
import os
import pathlib
import shutil
import subprocess
import sys
import tempfile

BIN = pathlib.Path(__file__).resolve().parent.parent / "bin"
CRATES = """# a remark
lowest:
sr_app: below
below: lowest memchr  # another
beside: lowest
"""
LINES = ["lowest:", "sr_app: below", "below: lowest memchr"]  # of those that are summed up
SCRIPT = '#!/bin/sh\ncat\necho "{}: $*"\nexit 7\n'
# In place of bin/build.py: what it builds is a program, or it fails.
BUILDS = f"#!/bin/sh\nmkdir -p crates/sr_app/out\ncat >crates/sr_app/out/sr_app <<'END'\n{SCRIPT.format('built anew')}END\nchmod +x crates/sr_app/out/sr_app\n"
FAILS = "#!/bin/sh\nexit 1\n"
OTHERS = "sr: this is release 3 of 2026-11-30, and the sources here are others: bin/sr --build proves and builds these\n"
NONE = "sr: there is no release here, so the program is proved and built first\n"
# The kit's compiler, which is llvm-strip too, and here a copy that leaves out a line.
STRIPS = '#!/bin/sh\n[ "$1" = --version ] && echo llvm-strip && exit\ngrep -v "^cat" "$4" >"$3"\n'
STRIPPED = SCRIPT.format("built").replace("cat\n", "")
OLD, NEW = 1_700_000_000, 1_800_000_000  # seconds


class Tree:
    """A repository of four crates, three of which the program needs, with a release of its sources."""

    def __init__(self, folder):
        self.top = pathlib.Path(folder)
        (self.top / "bin").mkdir()
        for name in "sr", "sources", "release":
            shutil.copy(BIN / name, self.top / "bin" / name)
        self.write("bin/build.py", FAILS)
        self.write("kit/rt", f'#!/bin/sh\n[ $1 = version ] && echo k || echo {self.top}/kit/README.md\n')
        self.write("kit/toolchain/bin/clang", STRIPS)
        self.write("crates.txt", CRATES)
        for crate in "lowest", "below", "beside", "sr_app":
            for part in "src/lib.rt", "src/deep/more.rt", "specs/A b.antt", "proofs/Answers.antt", "must-fail/one.edit":
                self.write(f"crates/{crate}/{part}", f"{part} of {crate}\n")
        shutil.rmtree(self.top / "crates/lowest/proofs")
        self.write("release/sr", SCRIPT.format("release"))
        self.write("release/RELEASE", f"version 3 of 2026-11-30\nkit k\nsources {self.sum()}\n")

    def write(self, name, text, when=OLD):
        path = self.top / name
        path.parent.mkdir(parents=True, exist_ok=True)
        path.write_text(text)
        path.chmod(0o755)
        os.utime(path, (when, when))
        for folder in path.parents:
            os.utime(folder, (OLD, OLD))
            if folder == self.top:
                break

    def sum(self):
        parts = [self.top / "crates" / line.partition(":")[0] / part for line in LINES for part in ("src", "specs", "proofs")]
        files = sorted(str(it.relative_to(self.top)).encode() for part in parts for it in part.rglob("*") if it.is_file())
        text = "".join(line + "\n" for line in LINES).encode()
        for name in files:
            text += hashlib.sha256((self.top / os.fsdecode(name)).read_bytes()).hexdigest().encode() + b"  " + name + b"\n"
        return hashlib.sha256(text).hexdigest()

    def build(self, when):
        """A program stands there as built at some time, or none does."""
        if when:
            self.write("crates/sr_app/out/sr_app", SCRIPT.format("built"), when)

    def call(self, name, *words):
        """What a program of bin/ says, on both outputs, and its status. The call is made in another folder."""
        there = {**os.environ, "PATH": f"{self.top}/kit:{os.environ['PATH']}"}
        ran = subprocess.run([self.top / "bin" / name, *words], input="in\n", capture_output=True, text=True, cwd="/", env=there)
        return ran.stdout.replace(str(self.top), "TOP"), ran.stderr, ran.returncode


def changed(name, text="other\n", when=OLD):
    """A change of a tree: a file of it gets this text."""
    return lambda tree: tree.write(name, text, when)


def released(tree):
    """What stands there as built is the release, stripped."""
    tree.build(NEW)
    tree.write("release/sr", STRIPPED)


def without_release(tree):
    shutil.rmtree(tree.top / "release")


def can_build(tree):
    without_release(tree)
    tree.write("bin/build.py", BUILDS.replace("crates", f"{tree.top}/crates"))


def renamed(tree):
    (tree.top / "crates/below/src/lib.rt").rename(tree.top / "crates/below/src/mod.rt")


def both(*changes):
    return lambda tree: [change(tree) for change in changes]


def built(when):
    return lambda tree: tree.build(when)


def text_of_release(number, tree):
    return f"version {number} of {datetime.datetime.now(datetime.timezone.utc):%Y-%m-%d}\nkit k\nsources {tree.sum()}\n"


LIBRARY = "crates/below/src/lib.rt"
RELEASE = ("in\nrelease: check json\n", "", 7)
OF_OTHERS = (RELEASE[0], OTHERS, 7)
BUILT = ("in\nbuilt: check json\n", "", 7)
# What is tried: what is done to the tree, the words, and what has to come.
STARTS = [
    ("a release of these sources is run, and nothing said", built(None), "sr check json", RELEASE),
    ("a source that was changed is told", changed(LIBRARY), "sr check json", OF_OTHERS),
    ("a definition that was changed is told", changed("crates/lowest/specs/A b.antt"), "sr check json", OF_OTHERS),
    ("a proof that came is told", changed("crates/sr_app/proofs/New.antt"), "sr check json", OF_OTHERS),
    ("a source that has another name is told", renamed, "sr check json", OF_OTHERS),
    ("a crate that stands on another one is told", changed("crates.txt", CRATES.replace("memchr", "hex")), "sr check json", OF_OTHERS),
    ("a crate that isn't needed matters not", changed("crates.txt", CRATES.replace("beside: lowest", "beside:")), "sr check json", RELEASE),
    ("its files matter not", changed("crates/beside/src/lib.rt", when=NEW), "sr check json", RELEASE),
    ("edits that must fail matter not", changed("crates/below/must-fail/one.edit"), "sr check json", RELEASE),
    ("remarks of crates.txt matter not", changed("crates.txt", CRATES.replace("remark", "word")), "sr check json", RELEASE),
    ("what was built and isn't older is run", built(NEW), "sr check json", BUILT),
    ("also beside a release of other sources", both(changed(LIBRARY), built(NEW)), "sr check json", BUILT),
    ("what was built and is older isn't run", both(built(OLD), changed(LIBRARY, when=NEW)), "sr check json", OF_OTHERS),
    ("without a release it is built", can_build, "sr check json", ("in\nbuilt anew: check json\n", NONE, 7)),
    ("if that fails the status is 126", without_release, "sr check json", ("", NONE, 126)),
    ("--which tells the release", built(None), "sr --which", ("TOP/release/sr\n", "", 0)),
    ("--which tells what was built", built(NEW), "sr --which", ("TOP/crates/sr_app/out/sr_app\n", "", 0)),
    ("--which tells of other sources", changed(LIBRARY), "sr --which", ("TOP/release/sr\n", OTHERS, 0)),
    ("--build is never content with a release", built(None), "sr --build", ("", "", 126)),
    ("--build leaves what isn't older", built(NEW), "sr --build", ("", "", 0)),
]
SAME = "release: 3 of 2026-11-30 is byte for byte the program that was built here\n"
DIFFERS = "release: 3 of 2026-11-30 isn't the program that was built here, though sources and kit are the same\n"
COMPARISONS = [
    ("the program that was built", released, SAME, 0),
    ("another program", both(released, changed("release/sr", STRIPPED + "#")), DIFFERS, 1),
    ("one that lacks its last byte", both(released, changed("release/sr", STRIPPED[:-1])), DIFFERS, 1),
    ("a release, and nothing was built", built(None), "release: nothing was built here\n", 1),
    ("a release of other sources", both(released, changed(LIBRARY), built(NEW)), "release: 3 of 2026-11-30 is of other sources, and isn't compared\n", 0),
    ("a release by another kit", both(released, changed("kit/rt", "#!/bin/sh\necho l\n")), "release: 3 of 2026-11-30 was built by k, and isn't compared: this is l\n", 0),
    ("a release, and the kit can't strip", both(released, changed("kit/toolchain/bin/clang")), "release: this kit has no llvm-strip, and nothing is compared\n", 0),
    ("no release", both(built(NEW), without_release), "release: there is none yet, and nothing is compared\n", 0),
]


def try_start(name, change, words, wanted):
    with tempfile.TemporaryDirectory(prefix="release-") as folder:
        tree = Tree(os.path.realpath(folder))
        change(tree)
        return name, wanted, tree.call(*words.split())


def try_comparison(name, change, told, status):
    return try_start(f"compared is {name}", change, "release --compare", ("", told, status))


def try_making(name, words, number, change):
    """A release is made of what was built, and is then what bin/sr takes for one of these sources, and bin/release for the same."""
    with tempfile.TemporaryDirectory(prefix="release-") as folder:
        tree = Tree(os.path.realpath(folder))
        change(tree)
        made = tree.call(*words.split())
        stands = (tree.top / "release/sr").read_text(), (tree.top / "release/RELEASE").read_text(), os.access(tree.top / "release/sr", os.X_OK)
        compared = tree.call("release", "--compare")[2]
        shutil.rmtree(tree.top / "crates/sr_app/out")
        told = text_of_release(number, tree)
        return name, ((told, "", 0), (STRIPPED, told, True), 0, ("built: a\n", "", 7)), (made, stands, compared, tree.call("sr", "a"))


def outcomes():
    for case in STARTS:
        yield try_start(*case)
    for case in COMPARISONS:
        yield try_comparison(*case)
    yield try_making("the next release is made", "release", 4, both(changed(LIBRARY), built(NEW)))
    yield try_making("a release is made by its number", "release 12", 12, built(NEW))
    yield try_making("a first release is made", "release", 1, both(without_release, built(NEW)))
    yield try_start("none is made of what can't be built", changed(LIBRARY), "release", ("", "", 126))


def main():
    passed = failed = 0
    for name, wanted, got in outcomes():
        passed, failed = passed + (got == wanted), failed + (got != wanted)
        print(f"passed {name}" if got == wanted else f"FAILED {name}\n    want {wanted}\n    got  {got}")
    print(f"{passed} passed, {failed} failed")
    return 1 if failed else 0


if __name__ == "__main__":
    sys.exit(main())
