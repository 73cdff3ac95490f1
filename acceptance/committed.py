"""What the programs here have in common that make the script of a crate of tests, its `stdin`, and what is to be printed of it, its `stdout`.

    acceptance/NAME.py --check [BUILT]   that the committed script and answers are those that NAME.py makes, and that BUILT, the crate's
                                         program, prints the answers, if one is named
    acceptance/NAME.py --write           writes both
    acceptance/NAME.py                   prints what a model says of a script on its standard input, if NAME.py is one

A program may have options of its own. It ends with status 0 if all is alike, with 1 if not, and with 2 if the words are none of these."""
import difflib
import pathlib
import subprocess
import sys
from inspect import signature

CRATES = pathlib.Path(__file__).resolve().parent.parent / "crates"
SECONDS = 300
SHOWN = 40


def alike(name, wanted, got, what):
    """Whether two texts are the same. Where they aren't it is shown."""
    if wanted == got:
        return True
    lines = difflib.unified_diff(wanted.splitlines(), got.splitlines(), name, what, lineterm="", n=2)
    print("\n".join([*lines][:SHOWN]))
    print(f"{name}: {what} isn't what is made here")
    return False


def check(name, crate, script, answers, built):
    for what, text in (("stdin", script), ("stdout", answers)):
        if not alike(name, text, (CRATES / crate / what).read_text(), f"crates/{crate}/{what}"):
            return 1
    if built:
        run = subprocess.run([built], input=script, capture_output=True, text=True, timeout=SECONDS)
        if not alike(name, answers, run.stdout, built):
            return 1
    print(f"{name}: the script and its {len(answers.splitlines())} lines of answers are as they are made here")
    return 0


def pairs(text):
    """The script and the answers of lines `LINE => ANSWER`, and of notes, which are answered by themselves."""
    script, answers = [], []
    for pair in filter(None, text.split("\n")):
        line, arrow, answer = pair.partition(" => ")
        assert bool(arrow) != line.startswith("note "), pair
        script.append(line + "\n")
        answers.append((answer if arrow else line) + "\n")
    return "".join(script), "".join(answers)


def main(crate, make, answers_of=None, options={}):
    """Does what the words say, for a program that makes the script and the answers of this crate. `answers_of` is what a model says of any
    script, and `options` has for further options what they do with the words after them."""
    name = pathlib.Path(sys.argv[0]).stem
    option, *words = sys.argv[1:] or [None]
    if option == "--write" and not words:
        script, answers = make()
        (CRATES / crate / "stdin").write_text(script)
        (CRATES / crate / "stdout").write_text(answers)
        return 0
    if option == "--check" and len(words) < 2:
        return check(name, crate, *make(), words[0] if words else None)
    if option is None and answers_of:
        sys.stdout.write(answers_of(sys.stdin.read()))
        return 0
    if option in options and len(words) == len(signature(options[option]).parameters):
        return options[option](*words)
    print(sys.modules["__main__"].__doc__)
    return 2
