"""The blocks `requests` of a page (page.py): who asks, and requests with their replies."""
import json
import re

from raw import Raw
from shown import Wrong, bytes_of, compare, shown, without_remark

FIELD = re.compile(r"([A-Za-z-]+): (.*)")
CORS = "access-control-"


class Client:
    """Who sends a block: the port, and the header fields of requests and of upgrades."""

    def __init__(self, page, block, port):
        self.port = port
        self.named = block.client is not None
        self.fields = page.fields(block.client)
        self.socket_fields = page.fields(block.client, "socket")
        if self.named and not self.fields:
            raise Wrong(f"the page has no header fields of {block.client}")

    def ask(self, method, target, body=None, fields=()):
        """A reply: its status, its fields and its body. A library's POST without a body has the length 0."""
        lane = Raw(self.port)
        lane.ask(method, target, b"" if body is None and self.named and method == "POST" else body, [*self.fields, *fields])
        return lane.reply()

    def chunked(self, method, target, body, fields):
        lane = Raw(self.port)
        head = [f"{method} {target} HTTP/1.1", f"Host: {lane.host}", *self.fields, *fields]
        chunk = b"%x\r\n%s\r\n" % (len(body), body) if body else b""
        lane.send("\r\n".join([*head, "", ""]).encode() + chunk + b"0\r\n\r\n")
        return lane.reply()


class Turn:
    """A request and its reply, as they are shown, with their fields."""

    def __init__(self, asked):
        self.asked = asked
        self.number = 0
        self.wanted = "no reply is shown"
        self.fields = []
        self.wanted_fields = {}

    def add(self, number, sign, line):
        field = FIELD.fullmatch(line)
        if sign == ">" and field:
            self.fields.append(line)
        elif field:
            self.wanted_fields[field[1].lower()] = field[2]
        else:
            self.number, self.wanted = number, line


def turns(lines):
    found = []
    for number, line in lines:
        sign, text = line[0], without_remark(line[2:])
        if sign == ">" and not FIELD.fullmatch(text):
            found.append(Turn(text))
        else:
            found[-1].add(number, sign, text)
    return found


class Requests:
    def __init__(self, client):
        self.client = client
        self.token = "TOKEN"

    def do(self, turn):
        method, target, *rest = turn.asked.replace("TOKEN", self.token).split(" ", 2)
        if rest == ["Upgrade: websocket"]:
            return compare(turn.number, turn.wanted, str(Raw(self.client.port).upgrade(target, fields=self.client.socket_fields)))
        body = bytes_of(rest[0]) if rest else None
        ask = self.client.chunked if "Transfer-Encoding: chunked" in turn.fields else self.client.ask
        status, fields, body = ask(method, target, body, turn.fields)
        if b'"connectionToken"' in body:
            self.token = json.loads(body)["connectionToken"]
        got = f"{status} {shown(body)}".replace(self.token, "TOKEN").rstrip()
        compare(turn.number, turn.wanted.replace("..", got[4:]), got)
        seen = {name: value for name, value in fields.items() if name.startswith(CORS) or name in turn.wanted_fields}
        return compare(turn.number, turn.wanted_fields, seen)


def requests(client, block, _):
    asker = Requests(client)
    for turn in turns(block.lines):
        asker.do(turn)
