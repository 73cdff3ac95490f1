#!/usr/bin/env python3
"""docs/words.md keeps a row only for words that the code uses.

The first column of its table has terms, with commas between them. A term is used if one identifier of crates/, one doc comment (of
`src/` or `specs/`) or one name of a file has all of its words, but articles and the like; a word may be in the plural. Prints each term
that isn't used, with the line of its row, and ends with status 1 if there is one."""
import pathlib
import re
import sys

TOP = pathlib.Path(__file__).resolve().parent.parent
PAGE = TOP / "docs" / "words.md"
SMALL = set("a an the of its it is isn't are be to by in on at with who whose what that which or and no not as for her our this".split())
DOC = {".rt": re.compile(r"\s*//[/!](.*)"), ".antt": re.compile(r"\s*--(.*)")}
STRING = re.compile(r'"(?:[^"\\]|\\.)*"')
IDENTIFIER = re.compile(r"[^\W\d][\w'-]*")
PART = re.compile(r"[A-Z]?[a-z']+|[A-Z]+(?![a-z])")


def stem(word):
    """A word without the endings of a genitive and a plural."""
    word = word.lower().removesuffix("'s")
    if word.endswith("ies"):
        return word[:-3] + "y"
    if word.endswith(("sses", "shes", "ches", "xes")):
        return word[:-2]
    return word[:-1] if word.endswith("s") and not word.endswith(("ss", "us", "is")) else word


def words_of(text):
    return frozenset(stem(part) for part in PART.findall(text))


def uses(path):
    """The words of each doc comment and of each identifier of a file."""
    comment, names = [], set()
    for line in [*path.read_text().splitlines(), ""]:
        if found := DOC[path.suffix].match(line):
            comment.append(found[1])
            continue
        if comment:
            yield words_of(" ".join(comment))
            comment = []
        code = STRING.sub("", line.partition("//" if path.suffix == ".rt" else "--")[0])
        names.update(IDENTIFIER.findall(code))
    yield from map(words_of, names)


def all_uses():
    for crate in sorted((TOP / "crates").iterdir()):
        for path in crate.glob("must-fail/*.edit"):
            yield words_of(f"{path.parent.name} {path.name}")
        for path in sorted([*crate.glob("src/**/*"), *crate.glob("specs/**/*")]):
            if path.suffix in DOC:
                yield words_of(path.stem)
                yield from uses(path)


def terms():
    """The terms of the first table: the line of each, its text and its words."""
    rows = False
    for number, line in enumerate(PAGE.read_text().splitlines(), 1):
        if not line.startswith("|"):
            if rows:
                return
            continue
        first = line.split("|")[1].strip()
        if rows and not first.startswith("--"):
            for term in re.split(r"[,;:]", first):
                wanted = {stem(word) for word in re.findall(r"[\w']+", term) if word not in SMALL}
                if wanted:
                    yield number, term.strip(), wanted
        rows = True


def main():
    used = set(all_uses())
    found = [f"docs/words.md:{number}: the code doesn't use `{term}`" for number, term, wanted in terms() if not any(wanted <= it for it in used)]
    print("\n".join(found) if found else "each word of docs/words.md is used")
    return 1 if found else 0


if __name__ == "__main__":
    sys.exit(main())
