"""A server of rooms over plain lists, as slow as it likes: what it says at each event. It speaks JSON alone, and knows versions 1 and 2. Of
calculations it knows `Count`.

It is told events as `(now, kind, lane, ...)` and answers with a list of lines, each one thing that is said; then it is told of each message whether
its lane is full. Its ends are written after HubProtocol.md ("Overview", for the handshake, Ack and Sequence); its lives, its table of requests and
what an end holds are the server's own rules, as `docs/serving.md` and `docs/delivery.md` say them."""
import base64
import json

LIVES, HELD, PING, SILENCE = 30000, 90000, 15000, 30000
MOST_GROUPS = 256
MOST_FRAMED = 32768 + 5  # bytes of a frame and its framing, for which there is to be room before a job goes on
USUAL = (1024, 100000)  # messages and framed bytes that an end holds


def compact(message): return json.dumps(message, sort_keys=True, separators=(",", ":"))


def token_of(draw, conn): return base64.urlsafe_b64encode(bytes([draw]) * 16 + conn.to_bytes(8, "big")).decode()


class End:
    """The server's end of one connection."""

    def __init__(self, reconnect, most):
        self.most_messages, self.most_bytes = most
        self.reconnect, self.shaken, self.version, self.closed, self.farewell, self.answer = reconnect, False, 0, False, None, None
        self.sent, self.acked, self.lent, self.processed = [], 0, 0, 0
        self.link, self.links = None, 0
        self.heard = self.wrote = 0

    @property
    def kept(self): return self.shaken and self.reconnect and self.version == 2

    def has_room(self, size):
        """Whether a message of so many bytes may be held beside those that the other end may not have, or that aren't written yet."""
        held = self.sent[self.acked if self.kept else self.lent:]
        return len(held) < self.most_messages and sum(len(text) + 1 for text in held) + size <= self.most_bytes

    def attach(self, now):
        self.links += 1
        self.link = {"first": self.links == 1, "said": [], "number": None, "place": 0, "told": 0, "next": 1 if self.links == 1 else None}
        self.heard, self.wrote, self.quiet = now, now, False

    def lose(self):
        self.link = None
        if not self.kept:
            self.closed = True

    def tick(self, now):
        """True if it is a silence."""
        if self.heard is None:
            self.heard = now
        if not self.closed and now >= self.heard + SILENCE:
            self.lose()
            return True
        if now >= self.wrote + PING:
            self.quiet = True
        return False

    def due(self):
        link = self.link
        if link is None:
            return None
        if self.answer is not None:
            return None if link["said"] else ("answer", self.answer)
        if not link["said"]:
            if link["first"]:
                return ("response", "{}") if self.shaken else None
            return ("sequence", self.acked + 1)
        place = max(self.acked, link["place"])
        waits = place < len(self.sent)
        if waits and link["number"] != place + 1:
            return ("sequence", place + 1)
        if self.kept and not self.closed and link["told"] < self.processed:
            return ("ack", self.processed)
        if waits:
            return ("message", place)
        if self.shaken and not self.closed and self.quiet:
            return ("ping", None)
        if self.shaken and self.farewell is not None and not any(kind == "close" for kind in link["said"]):
            return ("close", self.farewell)
        return None

    def lend(self, now):
        """The next text that is due, or None."""
        due = self.due()
        if due is None:
            return None
        kind, what = due
        link = self.link
        link["said"].append(kind)
        self.wrote, self.quiet = now, False
        if kind == "response":
            link["number"] = 1
            return what
        if kind == "answer":
            return what
        if kind == "sequence":
            link["number"] = what
            return compact({"type": 9, "sequenceId": what})
        if kind == "ack":
            link["told"] = what
            return compact({"type": 8, "sequenceId": what})
        if kind == "ping":
            return compact({"type": 6})
        if kind == "close":
            return compact({"type": 7, **({"error": what} if what else {})})
        link["place"], link["number"] = what + 1, link["number"] + 1
        self.lent = max(self.lent, what + 1)
        return self.sent[what]

    def close(self, error):
        if not self.closed:
            self.closed, self.farewell = True, error


class Conn:
    def __init__(self, number, token, reconnect, now, user):
        self.number, self.token, self.reconnect, self.user = number, token, reconnect, user
        self.made, self.end, self.jobs = now, None, []
        self.socket = self.lost = self.poll = self.polled = self.ended = None
        self.gone = False

    @property
    def who(self): return self.user or str(self.number)

    def standing(self):
        if self.gone:
            return "unknown"
        if self.ended is not None:
            return "ending"
        if self.socket is not None:
            return "socket"
        if self.lost is not None:
            return "lost"
        if self.poll is not None or self.polled is not None:
            return "polling"
        return "fresh"

    def since(self):
        since = {"fresh": self.made if self.token else None, "lost": self.lost, "polling": self.polled, "ending": self.ended}
        return since.get(self.standing())


def lane_of(word):
    """The lane of a message that is said, and None of what is none."""
    kind, lane, *_ = word.split(" ")
    return int(lane) if kind in ("text", "bytes") else None


class Server:
    def __init__(self, keeper_fails, lots_fail, users, most=USUAL):
        self.most = most
        self.conns, self.order, self.joined, self.users, self.rows = {}, [], [], users, []
        self.keeper_fails, self.lots_fail, self.asked, self.drawn, self.draw = keeper_fails, lots_fail, 0, 0, 0
        self.last, self.refused, self.full = {}, set(), set()

    # ---- what is said

    def shut(self, lane): return [] if lane in self.refused else [f"shut {lane}"]

    def reply(self, lane, status, kind="None", body="", accept=None, tells=None):
        ends = lane not in self.refused and (status == 400 or (self.last.get(lane) and status != 101))
        words = ([f"accept {accept}"] if accept else []) + ([tells] if tells else []) + ["close"] * bool(ends) + ([body] if body else [])
        return [" ".join([f"reply {lane} {status} {kind}", *words])] + ([f"shut {lane}"] if ends else [])

    def failed(self):
        self.asked += 1
        return self.asked - 1 in self.keeper_fails

    # ---- one event

    def hear(self, now, kind, lane=None, what=None):
        self.now, self.said = now, []
        if kind == "request":
            self.last[lane] = what["shut"]
            self.refused.discard(lane)
        if kind == "refused":
            self.refused.add(lane)
        if kind in ("request", "drained"):
            self.full.discard(lane)
        self.expire()
        if kind == "request":
            self.request(lane, what)
        elif kind == "text":
            for conn in self.conns.values():
                if conn.socket == lane and not conn.gone:
                    self.feed(conn, what)
                    break
        elif kind == "lost":
            self.loss(lane)
        for number in sorted(self.conns):
            self.tick(self.conns[number])
        self.round()
        for number in sorted(self.conns):
            self.tell(self.conns[number])
        return self.said

    def note_sent(self, lane, full):
        """The door's answer to a message."""
        (self.full.add if full else self.full.discard)(lane)

    def expire(self):
        for number in sorted(self.conns):
            conn = self.conns[number]
            since = conn.since()
            if since is None or self.now < since + LIVES:
                continue
            if conn.standing() == "polling":
                self.close(conn, "Connection expired.")
                conn.ended = self.now
            else:
                self.let_go(conn)

    def let_go(self, conn):
        conn.gone, conn.socket, conn.poll, conn.jobs = True, None, None, []
        if conn.end is not None:
            conn.end.closed = True
        self.leave(conn)

    def leave(self, conn):
        self.joined = [(room, k) for room, k in self.joined if k != conn.number]

    def close(self, conn, error):
        if conn.end is not None:
            conn.end.close(error)
        self.leave(conn)

    def up(self, conn): return conn.end is not None and not conn.gone and not conn.end.closed

    def granted(self, conn): return self.up(conn) and conn.end.kept

    def loss(self, lane):
        for conn in self.conns.values():
            if conn.gone:
                continue
            if conn.socket == lane:
                self.lose_socket(conn)
                return
            if conn.poll and conn.poll[0] == lane:
                conn.poll, conn.polled = None, self.now
                return

    def lose_socket(self, conn):
        granted = self.granted(conn)
        conn.end.lose()
        if conn.end.closed:
            self.leave(conn)
        if granted:
            conn.socket, conn.lost = None, self.now
        else:
            self.let_go(conn)

    def tick(self, conn):
        if conn.gone or conn.end is None or conn.end.link is None:
            return
        granted = self.granted(conn)
        if not conn.end.tick(self.now):
            return
        if conn.end.closed:
            self.leave(conn)
        if conn.socket is not None:
            lane = conn.socket
            if granted:
                conn.socket, conn.lost = None, self.now
            else:
                self.let_go(conn)
            self.said += self.shut(lane)

    # ---- requests

    def caller(self, bearer):
        """The status that refuses, or the user."""
        if bearer is None:
            return None, None
        if self.failed():
            return 500, None
        return (None, bearer) if bearer in self.users else (401, None)

    def live(self): return sum(conn.standing() != "unknown" for conn in self.conns.values())

    def request(self, lane, r):
        path, query = r["path"], r["query"]
        negotiate = path == "/hub/negotiate"
        if path not in ("/hub", "/hub/negotiate"):
            return self.answer(lane, 404)
        if negotiate and r["method"] != "POST":
            return self.answer(lane, 405, tells="allow=POST")
        version = query.get("negotiateVersion", "")
        if negotiate and not (version.isdigit() and 0 < int(version) < 2 ** 64):
            return self.answer(lane, 400)
        if negotiate or (r["upgrade"] and "id" not in query):
            status, user = self.caller(r["bearer"])
            if status:
                return self.answer(lane, status, tells="authenticate=Bearer" if status == 401 else None)
            return self.negotiate(lane, query, user) if negotiate else self.open(lane, r, user)
        if r["method"] not in ("GET", "POST", "DELETE"):
            return self.answer(lane, 405, tells="allow=GET,POST,DELETE")
        if "id" not in query:
            return self.answer(lane, 400)
        conn = next((c for c in self.conns.values() if c.token == query["id"]), None)
        life = conn.standing() if conn else "unknown"
        if r["upgrade"]:
            return self.socket(lane, r, conn, life)
        return {"GET": self.poll, "POST": self.post, "DELETE": self.delete}[r["method"]](lane, r, conn, life)

    def answer(self, lane, status, **more): self.said += self.reply(lane, status, **more)

    def negotiate(self, lane, query, user):
        self.drawn += 1
        if self.drawn - 1 in self.lots_fail:
            return self.answer(lane, 500)
        number = len(self.conns) + 1
        token = token_of(self.draw, number)
        self.draw += 1
        reconnect = query.get("useStatefulReconnect") == "true"
        self.conns[number] = Conn(number, token, reconnect, self.now, user)
        transports = [{"transferFormats": ["Text", "Binary"], "transport": name} for name in ("WebSockets", "LongPolling")]
        body = {"availableTransports": transports, "connectionId": str(number), "connectionToken": token, "negotiateVersion": 1}
        if reconnect:
            body["useStatefulReconnect"] = True
        return self.answer(lane, 200, kind="Json", body=compact(body))

    def begin(self, conn, reconnect):
        if conn.end is None:
            conn.end = End(reconnect, self.most)
            self.order.append(conn.number)

    def stand(self, lane, conn, r, reconnect):
        self.begin(conn, reconnect)
        conn.end.attach(self.now)
        conn.socket, conn.lost = lane, None
        self.answer(lane, 101, accept=r["upgrade"])

    def open(self, lane, r, user):
        number = len(self.conns) + 1
        conn = self.conns[number] = Conn(number, None, False, self.now, user)
        self.stand(lane, conn, r, False)

    def socket(self, lane, r, conn, life):
        if life in ("unknown", "ending"):
            return self.answer(lane, 404)
        if life == "polling" or (life == "socket" and not self.granted(conn)):
            return self.answer(lane, 409)
        if conn.socket is not None:
            self.said += self.shut(conn.socket)
        return self.stand(lane, conn, r, conn.reconnect)

    def poll(self, lane, r, conn, life):
        if life == "unknown":
            return self.answer(lane, 404)
        if life in ("socket", "lost"):
            return self.answer(lane, 409)
        if life == "fresh":
            self.begin(conn, False)
            conn.end.attach(self.now)
            self.feed(conn, "")
            conn.polled = self.now
            return self.answer(lane, 200)
        if life == "polling":
            self.end_poll(conn)
            self.feed(conn, "")
        conn.poll, conn.polled = (lane, self.now), None
        return None

    def end_poll(self, conn):
        if conn.poll:
            self.answer(conn.poll[0], 204)
            conn.poll, conn.polled = None, self.now

    def post(self, lane, r, conn, life):
        if life in ("unknown", "ending"):
            return self.answer(lane, 404)
        if life != "polling":
            return self.answer(lane, 409)
        self.feed(conn, r["body"])
        return self.answer(lane, 200)

    def delete(self, lane, r, conn, life):
        if life == "unknown":
            return self.answer(lane, 404)
        if life in ("socket", "lost"):
            return self.answer(lane, 409)
        self.end_poll(conn)
        self.close(conn, "")
        self.let_go(conn)
        return self.answer(lane, 202)

    # ---- bytes that come, whole texts each of which ends with a separator

    def feed(self, conn, text):
        end = conn.end
        if end.link is None or end.closed:
            return
        end.heard = None
        for frame in text.split("|")[:-1]:
            if end.closed:
                return
            self.take(conn, end, frame)
            if end.closed:
                self.leave(conn)

    def take(self, conn, end, frame):
        if not end.shaken:
            try:
                asked = json.loads(frame)
            except ValueError:
                end.closed, end.answer = True, compact({"error": "The handshake is not JSON."})
                return
            end.shaken, end.version = True, asked["version"]
            return
        message = json.loads(frame)
        kind = message["type"]
        if kind == 6:
            return
        if kind == 7:
            end.closed = True
        elif kind == 8:
            if end.kept:
                if message["sequenceId"] > end.lent:
                    end.closed, end.farewell = True, "Protocol error."
                else:
                    end.acked = max(end.acked, message["sequenceId"])
        elif kind == 9:
            if end.kept:
                if message["sequenceId"] > end.processed + 1:
                    end.closed, end.farewell = True, "Protocol error."
                else:
                    end.link["next"] = message["sequenceId"]
        elif self.counts(end):
            self.invoke(conn, message)

    @staticmethod
    def counts(end):
        """Whether a message is the next one. On a later link those before its first Sequence are passed over."""
        if not end.kept:
            end.processed += 1
            return True
        if end.link["next"] is None:
            return False
        end.link["next"] += 1
        if end.link["next"] != end.processed + 2:
            return False
        end.processed += 1
        return True

    # ---- the hub

    def invoke(self, conn, message):
        target, args = message["target"], message["arguments"]
        job = {"id": message.get("invocationId"), "deeds": [], "ending": {"error": "Unknown method."}}
        deeds = {"Join": lambda r: [("join", r)], "Leave": lambda r: [("leave", r)], "Post": lambda r, t: [("log", r, t), ("post", r, t)],
                 "Tell": lambda u, t: [("tell", u, t)], "History": lambda r, n: [("history", r, n)],
                 "Count": lambda n: [("item", k) for k in range(1, n + 1)]}
        if target in deeds:
            job.update(deeds=deeds[target](*args), ending={})
        conn.jobs.append(job)

    def send(self, conn, text): conn.end.sent.append(text)

    def may_turn(self, conn): return self.up(conn) and conn.end.has_room(MOST_FRAMED)

    def idle(self): return not any(conn.jobs and self.may_turn(conn) for conn in self.conns.values())

    def round(self):
        for number in sorted(self.conns):
            conn = self.conns[number]
            for job in list(conn.jobs):
                if not self.may_turn(conn):
                    break
                if job["deeds"]:
                    self.carry(conn, job)
                    continue
                conn.jobs.remove(job)
                if job["id"] is not None:
                    self.send(conn, compact({"type": 3, "invocationId": job["id"], **job["ending"]}))

    def carry(self, conn, job):
        deed = job["deeds"].pop(0)
        if deed[0] == "item":
            self.send(conn, compact({"type": 2, "invocationId": job["id"], "item": deed[1]}))
        elif deed[0] == "join" and (deed[1], conn.number) not in self.joined:
            if sum(k == conn.number for _, k in self.joined) < MOST_GROUPS:
                self.joined.append((deed[1], conn.number))
            else:
                job["ending"] = {"error": "Too many groups."}
        elif deed[0] == "leave":
            self.joined = [pair for pair in self.joined if pair != (deed[1], conn.number)]
        elif deed[0] == "log":
            if self.failed():
                job.update(deeds=[], ending={"error": "The store failed."})
            else:
                self.rows.append((deed[1], deed[2]))
        elif deed[0] == "history":
            if self.failed():
                job["ending"] = {"error": "The store failed."}
            else:
                texts = [text for room, text in self.rows if room == deed[1]]
                job["ending"] = {"result": texts[max(0, len(texts) - deed[2]):]}
        elif deed[0] == "post":
            self.notify([k for room, k in self.joined if room == deed[1]], "Posted", deed[1], conn.who, deed[2])
        elif deed[0] == "tell":
            self.notify([k for k in self.order if self.conns[k].user == deed[1]], "Told", conn.who, deed[2])

    def notify(self, members, target, *arguments):
        for number in members:
            conn = self.conns[number]
            if self.up(conn) and conn.end.shaken:
                text = compact({"type": 1, "target": target, "arguments": list(arguments)})
                if conn.end.has_room(len(text) + 1):
                    self.send(conn, text)
                else:
                    self.close(conn, "Too slow.")

    # ---- what is due

    def lend_all(self, conn, most=None):
        texts, size = [], 0
        while most is None or size <= most:
            text = conn.end.lend(self.now)
            if text is None:
                break
            texts.append(text + "|")
            size += len(text) + 1
        return "".join(texts)

    def tell(self, conn):
        if conn.gone or conn.end is None:
            return
        if conn.socket is not None:
            lane = conn.socket
            if lane in self.full and not conn.end.closed:
                return
            text = self.lend_all(conn)
            if text:
                self.said.append(f"text {lane} {text}")
            if conn.end.closed:
                self.said += self.shut(lane)
                self.let_go(conn)
            return
        if conn.poll is None and conn.polled is None:
            if conn.end.closed:
                self.let_go(conn)
            return
        if conn.end.closed and conn.ended is None:
            conn.ended = self.now
        if conn.poll is None:
            return
        lane, since = conn.poll
        text = self.lend_all(conn, 32763)
        if text:
            self.answer(lane, 200, kind="Octets", body=text)
            conn.poll, conn.polled = None, self.now
        elif conn.end.closed:
            self.answer(lane, 204)
            self.let_go(conn)
        elif self.now >= since + HELD:
            self.answer(lane, 200)
            conn.poll, conn.polled = None, self.now
