"""Reads the rows of acceptance/*.toml under any Python from 3.9 on, since tomllib came with 3.11.

Of TOML it reads what these files use, and it refuses the rest, so that each of them means the same to any reader of TOML:

    # a remark
    [pieces] or [[row]]     begins a table. Each line below it is a name of small letters, ` = ` and a value
    "a text"                on one line, with \\n, \\r, \\t, \\b, \\f, \\", \\\\ or four digits after \\u
    'a text'                on one line, as it stands
    '''a text'''            over lines, as it stands, but for the end of its first line if nothing else is there
    12                      a whole number
    [VALUE, VALUE]          over lines; a comma may follow the last
    { name = VALUE }        on one line, with commas between

`.ci/rows.py` compares it with tomllib."""
import json
import re

BLANKS = re.compile(" *")
REMARKS = re.compile(r"(?:[ \n]|#[^\n]*)*")
LINE_END = re.compile(r" *(?:#[^\n]*)?(?:\n|\Z)")
HEAD = re.compile(r"\[pieces\]|\[\[row\]\]")
NAME = re.compile("[a-z]+")
EQUALS = re.compile(" *= *")
COMMA, LIST, LIST_END, TABLE, TABLE_END = (re.compile(re.escape(sign)) for sign in ",[]{}")
LONG = re.compile(r"'''\n?((?:(?!''')[^\x00-\x08\x0b-\x1f\x7f])*)'''(?!')")
LITERAL = re.compile(r"'([^'\x00-\x1f\x7f]*)'(?!')")
SPELLED = re.compile(r'"(?:[^"\\\x00-\x1f\x7f]|\\[btnfr"\\]|\\u(?![dD][89a-fA-F])[0-9a-fA-F]{4})*"(?!")')
NUMBER = re.compile("0|[1-9][0-9]*")


class Refused(Exception):
    """It isn't written as above: the file, the line and why."""


class Reader:
    """A text, and the place up to which it is read."""

    def __init__(self, name, text):
        self.name, self.text, self.at = name, text, 0

    def take(self, pattern):
        found = pattern.match(self.text, self.at)
        self.at = found.end() if found else self.at
        return found

    def must(self, pattern, what):
        found = self.take(pattern)
        if not found:
            self.refuse(f"here should be {what}")
        return found

    def refuse(self, why):
        raise Refused(f"{self.name}:{self.text.count(chr(10), 0, self.at) + 1}: {why}")

    def tables(self):
        """What the whole file says: `pieces`, and a list of each `row`."""
        tables, table = {}, None
        self.take(REMARKS)
        while self.at < len(self.text):
            head = self.take(HEAD)
            if head:
                table = self.begin(tables, head[0])
            elif table is None:
                self.refuse("here should be [pieces] or [[row]]")
            else:
                self.pair(table)
            self.must(LINE_END, "the end of the line")
            self.take(REMARKS)
        return tables

    def begin(self, tables, head):
        table = {}
        if head == "[[row]]":
            tables.setdefault("row", []).append(table)
        elif "pieces" in tables:
            self.refuse("[pieces] stands twice")
        else:
            tables["pieces"] = table
        return table

    def pair(self, table):
        name = self.must(NAME, "a name of small letters")[0]
        if name in table:
            self.refuse(f"{name} stands twice in its table")
        self.must(EQUALS, "an =")
        table[name] = self.value()

    def value(self):
        if self.take(LIST):
            return self.list()
        if self.take(TABLE):
            return self.table()
        for pattern in LONG, LITERAL:
            found = self.take(pattern)
            if found:
                return found[1]
        found = self.take(SPELLED)
        return json.loads(found[0]) if found else int(self.must(NUMBER, "a text, a whole number, a list or a table")[0])

    def list(self):
        values = []
        self.take(REMARKS)
        while not self.take(LIST_END):
            values.append(self.value())
            self.take(REMARKS)
            if not self.take(COMMA):
                self.must(LIST_END, "a comma or ]")
                break
            self.take(REMARKS)
        return values

    def table(self):
        table = {}
        while True:
            self.take(BLANKS)
            self.pair(table)
            self.take(BLANKS)
            if not self.take(COMMA):
                self.must(TABLE_END, "a comma or }")
                return table


def read(path):
    return Reader(path, path.read_text(encoding="utf-8")).tables()
