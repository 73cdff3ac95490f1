"""A plain model of what frames say: what `sr check` and `sr convert` write of any bytes.

It follows docs/protocol.md and shares no code with the program. JSON is read by Python's json, with what RFC 8259 doesn't have switched off;
MessagePack from a place on, one branch for each row of its specification's table; what is packed is that of replay_model.py. The properties of
JSON's objects are those of frames_messages.py."""
import base64
import json

from frames_messages import PROPERTIES
from replay_model import json_text, pack, packed_message

MOST = 32_768  # bytes of a frame
MOST_LENGTH = 5  # bytes of a frame's length
MOST_DEPTH, MOST_NESTED = 64, 127  # lists and maps in one another: of a value, and of a text that is read at all
MOST_NUMBER = 2**64
RECORD = b"\x1e"
MESSAGES = range(1, 10)
ABSENT = object()  # of a result, whose null is one


class Refused(Exception):
    """Its text is why."""


class Fraction:
    """A number of a text that is none of ours."""


FRACTION = Fraction()


# ---- JSON


class Members(list):
    """The members of an object, all of them: the last of a name counts, but each has to be readable."""


def number_of(text):
    if float(text) in (float("inf"), float("-inf")):
        raise Refused("NotJson")
    return FRACTION


def whole_of(text):
    if len(text) > 20 or text == "-0":
        return number_of(text)
    number = int(text)
    return number if is_in_range(number) else FRACTION


def is_in_range(number):
    return -(2**63) <= number < MOST_NUMBER


def no_constant(_):
    raise Refused("NotJson")


DECODER = json.JSONDecoder(parse_float=number_of, parse_int=whole_of, parse_constant=no_constant, object_pairs_hook=Members)


def value_of(data):
    """The value of these bytes as JSON."""
    try:
        read = DECODER.decode(data.decode())
    except (ValueError, RecursionError):
        raise Refused("NotJson") from None
    if not is_readable(read, MOST_NESTED):
        raise Refused("NotJson")
    value = settled(read)
    if has_fraction(value):
        raise Refused("Fraction")
    if depth_of(value) > MOST_DEPTH:
        raise Refused("TooDeep")
    return value


def is_readable(read, levels):
    """Whether each text is one of letters, where Python takes half a pair too, and no more levels are there."""
    if isinstance(read, str):
        return read.isascii() or not any("\ud800" <= letter <= "\udfff" for letter in read)
    if isinstance(read, Members):
        return levels > 0 and all(is_readable(name, 0) and is_readable(part, levels - 1) for name, part in read)
    if isinstance(read, list):
        return levels > 0 and all(is_readable(part, levels - 1) for part in read)
    return True


def settled(read):
    if isinstance(read, Members):
        return {name: settled(part) for name, part in dict(read).items()}
    return [settled(part) for part in read] if isinstance(read, list) else read


def parts_of(value):
    if isinstance(value, dict):
        return value.values()
    return value if isinstance(value, list) else ()


def has_fraction(value):
    return value is FRACTION or any(map(has_fraction, parts_of(value)))


def depth_of(value):
    return 1 + max(map(depth_of, parts_of(value)), default=0) if isinstance(value, (dict, list)) else 0


def is_whole(value):
    return isinstance(value, int) and not isinstance(value, bool)


KINDS = {
    "text": lambda value: isinstance(value, str),
    "texts": lambda value: isinstance(value, list) and all(isinstance(part, str) for part in value),
    "list": lambda value: isinstance(value, list),
    "headers": lambda value: isinstance(value, dict) and all(isinstance(part, str) for part in value.values()),
    "truth": lambda value: isinstance(value, bool),
    "number": lambda value: is_whole(value) and value >= 0,
    "value": lambda value: True,
}


def checked(value, kind, name):
    if not KINDS[kind](value):
        raise Refused(f"Wrong {name}")
    return value


def type_of(value):
    if not is_whole(value):
        raise Refused("Wrong type")
    return value


def message_in_json(data):
    """The message of a frame in JSON as a tree, or the number of its unknown type."""
    frame = value_of(data)
    if not isinstance(frame, dict):
        raise Refused("NotObject")
    if "type" not in frame:
        raise Refused("Missing type")
    number = type_of(frame["type"])
    if number not in MESSAGES:
        return number
    found = {}
    for name, kind, must in PROPERTIES[number]:
        if must and name not in frame:
            raise Refused(f"Missing {name}")
        if must or frame.get(name) is not None:
            found[name] = checked(frame[name], kind, name)
    return tree_of(number, found, frame.get("result", ABSENT), frame.get("received"))


def tree_of(number, found, result, received):
    """A message as it is written: without what is empty or isn't there."""
    tree = {"type": number, **found}
    if number == 3 and result is not ABSENT:
        if "error" in found:
            raise Refused("Both")
        tree["result"] = result
    if number == 9 and KINDS["number"](received):
        tree["received"] = received
    empty = {"headers": {}, "streamIds": [], "allowReconnect": False}
    return {name: part for name, part in tree.items() if name not in empty or part != empty[name]}


# ---- MessagePack

# What stands behind each marker that doesn't hold it: bytes of a number and whether it has a sign, or bytes of a length or a count.
NUMBERS = {0xCC: (1, False), 0xCD: (2, False), 0xCE: (4, False), 0xCF: (8, False), 0xD0: (1, True), 0xD1: (2, True), 0xD2: (4, True), 0xD3: (8, True)}
TEXTS, OCTETS, LISTS, MAPS = {0xD9: 1, 0xDA: 2, 0xDB: 4}, {0xC4: 1, 0xC5: 2, 0xC6: 4}, {0xDC: 2, 0xDD: 4}, {0xDE: 2, 0xDF: 4}
PLAIN = {0xC0: None, 0xC2: False, 0xC3: True}
REFUSED_MARKERS = {0xC1: "Never", 0xCA: "Fraction", 0xCB: "Fraction", **dict.fromkeys([*range(0xC7, 0xCA), *range(0xD4, 0xD9)], "Ext")}


class Packed:
    """A frame in MessagePack, read from the front."""

    def __init__(self, data):
        self.data, self.at = data, 0

    def marker(self):
        if self.at == len(self.data):
            raise Refused(f"Short {self.at}")
        return self.data[self.at]

    def sized(self, marker, place, fixed, sizes):
        """The length or count of this marker, or None if it is another's; after it the place is behind that."""
        if marker in fixed:
            self.at = place + 1
            return marker - fixed[0]
        if marker in sizes:
            self.at = place + 1
            return int.from_bytes(self.take(sizes[marker], place), "big")
        return None

    def take(self, count, place):
        if self.at + count > len(self.data):
            raise Refused(f"Short {place}")
        self.at += count
        return self.data[self.at - count : self.at]

    def text(self, marker, place):
        length = self.sized(marker, place, range(0xA0, 0xC0), TEXTS)
        if length is None:
            return None
        try:
            return self.take(length, place).decode()
        except UnicodeDecodeError:
            raise Refused(f"NotUtf8 {place}") from None

    def value(self, around=0):
        marker, place = self.marker(), self.at
        if marker in REFUSED_MARKERS:
            raise Refused(f"{REFUSED_MARKERS[marker]} {place}")
        if marker in PLAIN:
            self.at += 1
            return PLAIN[marker]
        if marker < 0x80 or marker >= 0xE0:
            self.at += 1
            return marker if marker < 0x80 else marker - 256
        if marker in NUMBERS:
            size, signed = NUMBERS[marker]
            self.at += 1
            return int.from_bytes(self.take(size, place), "big", signed=signed)
        text = self.text(marker, place)
        if text is not None:
            return text
        length = self.sized(marker, place, (), OCTETS)
        return self.several(marker, place, around) if length is None else self.take(length, place)

    def several(self, marker, place, around):
        if around == MOST_DEPTH:
            raise Refused(f"TooDeep {place}")
        count = self.sized(marker, place, range(0x90, 0xA0), LISTS)
        if count is not None:
            return [self.value(around + 1) for _ in range(count)]
        count = self.sized(marker, place, range(0x80, 0x90), MAPS)
        return dict(self.pair(around) for _ in range(count))

    def pair(self, around):
        marker, place = self.marker(), self.at
        key = self.text(marker, place)
        if key is None:
            raise Refused(f"Key {place}")
        return key, self.value(around + 1)


HEADERS, ID, OPTIONAL_ID = ("headers", "headers"), ("invocationId", "text"), ("invocationId", "text", "nil")
CALL = [("target", "text"), ("arguments", "list"), ("streamIds", "texts", "absent")]
# The elements of each array but for its number and a completion's ending. One may be nil, or absent.
ELEMENTS = {
    1: [HEADERS, OPTIONAL_ID, *CALL],
    2: [HEADERS, ID, ("item", "value")],
    3: [HEADERS, ID],
    4: [HEADERS, ID, *CALL],
    5: [HEADERS, ID],
    6: [],
    7: [("error", "text", "nil"), ("allowReconnect", "truth", "absent")],
    8: [("sequenceId", "number")],
    9: [("sequenceId", "number")],
}
ENDINGS = {1: ("error", "error", "text"), 3: ("result", "result", "value")}


def message_in_pack(data):
    """The message of a frame in MessagePack as a tree of which some values are bytes, or the number of its unknown type."""
    packed = Packed(data)
    array = packed.value()
    if packed.at < len(data):
        raise Refused(f"Trailing {packed.at}")
    if not isinstance(array, list):
        raise Refused("NotArray")
    number = type_of(element(array, 0, "type"))
    if number not in MESSAGES:
        return number
    found = {}
    for at, (name, kind, *may) in enumerate(ELEMENTS[number], 1):
        if at == len(array) and may == ["absent"]:
            continue
        part = element(array, at, name)
        if not (part is None and may == ["nil"]):
            found[name] = checked(part, kind, name)
    result = ending_in(array, found) if number == 3 else ABSENT
    return tree_of(number, found, result, array[2] if len(array) > 2 else None)


def element(array, at, name):
    if at >= len(array):
        raise Refused(f"Missing {name}")
    return array[at]


def ending_in(array, found):
    """The result of a completion. An error is put to what was found."""
    kind = element(array, 3, "result")
    if not is_whole(kind):
        raise Refused("Wrong result")
    if kind == 2:
        return ABSENT
    if kind not in ENDINGS:
        raise Refused(f"ResultKind {kind}")
    name, told, of = ENDINGS[kind]
    part = checked(element(array, 4, told), of, told)
    if name == "result":
        return part
    found["error"] = part
    return ABSENT


def image(value):
    """The value as JSON has it."""
    if isinstance(value, bytes):
        return base64.b64encode(value).decode()
    if isinstance(value, dict):
        return {key: image(part) for key, part in value.items()}
    return [image(part) for part in value] if isinstance(value, list) else value


# ---- frames and streams

READERS = {"json": message_in_json, "pack": message_in_pack}


def written(codec, tree):
    """A message as a frame of this codec, with its framing."""
    if codec == "json":
        return json_text(image(tree)).encode() + RECORD
    body = pack(packed_message(tree))
    size, length = len(body), []
    while size > 127:
        length.append(size % 128 + 128)
        size //= 128
    return bytes([*length, size]) + body


def next_frame(codec, data, at, most=MOST):
    """The frame that begins at a place, and the place behind it: a text is why no frame can come, None that it isn't whole."""
    return next_record(data, at, most) if codec == "json" else next_by_length(data, at, most)


def next_record(data, at, most):
    end = data.find(RECORD, at, at + most + 1)
    if end < 0:
        return ("TooLong" if len(data) - at > most else None), at
    return data[at:end], end + 1


def next_by_length(data, at, most=MOST):
    size = 0
    for place, byte in enumerate(data[at : at + MOST_LENGTH]):
        size |= (byte & 127) << 7 * place
        if byte < 128:
            begin = at + place + 1
            if size > most:
                return "TooLong", at
            return (data[begin : begin + size], begin + size) if begin + size <= len(data) else (None, at)
    return ("BadLength" if len(data) - at >= MOST_LENGTH else None), at


def told(codec, frame):
    """What `check` tells of a frame, and its message if it has one."""
    try:
        tree = READERS[codec](frame)
    except Refused as why:
        return f"refused {why}", None
    return (f"message {json_text(image(tree))}", tree) if isinstance(tree, dict) else (f"unknown {tree}", None)


def read(codec, data):
    """Each frame of a stream up to its end or its first refusal: its place, what is told of it, its message if it has one, and the place behind
    it. The last may be what is no frame."""
    at = 0
    while at < len(data):
        frame, end = next_frame(codec, data, at)
        if frame is None or isinstance(frame, str):
            yield at, f"refused {frame}" if frame else f"unfinished {len(data) - at}", None, None
            return
        line, tree = told(codec, frame)
        yield at, line, tree, end
        if line.startswith("refused"):
            return
        at = end


def is_fault(line):
    return line.startswith(("refused", "unfinished"))


def checked_stream(codec, data):
    """What `check` writes of a stream, and its exit status."""
    lines = [(at, line) for at, line, *_ in read(codec, data)]
    status = 2 if lines and is_fault(lines[-1][1]) else 0
    return "".join(f"{at} {line}\n" for at, line in lines).encode(), status


def converted_stream(codec, data):
    """What `convert` writes of it in the other codec, and its exit status."""
    other, frames, status = {"json": "pack", "pack": "json"}[codec], [], 0
    for _, line, tree, _ in read(codec, data):
        status = 2 if is_fault(line) else 0
        if tree is not None:
            frames.append(written(other, tree))
    return b"".join(frames), status
