"""Values as frames have them: the tables of `frames.py` in which a value is what counts. It is the item of a StreamItem, and the rest of the
frame is always the same.

JSON texts are by RFC 8259, and the base64 of bytes is by RFC 4648. What a spelling in MessagePack says is by the table of formats of its
specification; how a value is packed is what Python's msgpack 1.0.3 gave for it, with a map's keys in byte order. Ours are the words of refusals, that
numbers are whole, that a frame nests 64 deep, and that of equal keys the last counts (docs/protocol.md).

FRAMES has under each title what `sr check` tells of a frame: its codec, its bytes, and the line without its place. PACKED has under each title
texts in JSON, each with the frame in MessagePack that `sr convert` makes of it. LONG has values that are too long for these two commands."""
import base64
import json

# The frame around an item. The item is one level down, and PLACE bytes behind the front in MessagePack.
JSON_FRAME = '{"type":2,"invocationId":"1","item":%s}'
JSON_WRITTEN = '{"invocationId":"1","item":%s,"type":2}'
PACK_FRAME = b"\x94\x02\x80\xa11"
PLACE = len(PACK_FRAME)


def data(text):
    return text if isinstance(text, bytes) else text.encode()


def item_in_json(item):
    return JSON_FRAME.encode() % data(item)


def is_read(codec, frame, item):
    """A frame whose item is written so in JSON."""
    return codec, frame, "message " + JSON_WRITTEN % item


def is_refused(codec, frame, words):
    return codec, frame, "refused " + words


def refused_at(item, word, place):
    """An item in MessagePack that is refused at a place of its own."""
    return is_refused("pack", PACK_FRAME + item, f"{word} {PLACE + place}")


def compact(value):
    """A value in JSON, as our writer spells it."""
    return json.dumps(value, ensure_ascii=False, separators=(",", ":"))


# ---- values in JSON

# Items, and as what they are written. The first is the first example of RFC 8259, section 13, and the surrogate pair is of its section 7.
TEXTS = [
    (
        """{ "Image": { "Width":  800, "Height": 600,
                "Title":  "View from 15th Floor",
                "Thumbnail": { "Url":    "http://www.example.com/image/481989943",
                    "Height": 125, "Width":  100 },
                "Animated" : false, "IDs": [116, 943, 234, 38793] } }""",
        '{"Image":{"Animated":false,"Height":600,"IDs":[116,943,234,38793],'
        '"Thumbnail":{"Height":125,"Url":"http://www.example.com/image/481989943","Width":100},'
        '"Title":"View from 15th Floor","Width":800}}',
    ),
    ('"Hello world!"', '"Hello world!"'),
    ("42", "42"),
    ("true", "true"),
    ("false", "false"),
    ("null", "null"),
    (r'"\uD834\uDD1E"', '"\U0001d11e"'),
    (r'"\u0041\/\u000a\u0000"', r'"A/\n\u0000"'),
    (r'"\b\f\n\r\t\"\\\/\u0008\u001F\u007f"', r'"\b\f\n\r\t\"\\/\b\u001f' + '\x7f"'),
    ('"\U0010ffff\u2028\ufeff"', '"\U0010ffff\u2028\ufeff"'),
    ("\t[ ]\r\n", "[]"),
    ("{}", "{}"),
    ('"grüße"', '"grüße"'),
    ('[[1,{"b":[],"a":""}],[]]', '[[1,{"a":"","b":[]}],[]]'),
]

# The ends of the range of whole numbers, and of the types of the language.
WHOLE_NUMBERS = [-(2**63), -(2**63) + 1, -(2**32), -(2**31), -1, 0, 1, 2**31, 2**32, 2**53 + 1, 2**63 - 1, 2**63, 2**64 - 1]

# Members of an object: the last of a name counts, also where one before it would be refused, and names are written in the order of their bytes.
MEMBERS = [
    ('{"b" : 1, "a":[null,true], "b":2}', '{"a":[null,true],"b":2}'),
    ('{"a":1.5,"a":2}', '{"a":2}'),
    ('{"a":-0,"a":{"b":1e3,"b":3}}', '{"a":{"b":3}}'),
    (r'{"a":1,"\u0061":2}', '{"a":2}'),
    ('{"é":1,"z":2,"Z":3}', '{"Z":3,"z":2,"é":1}'),
    ('{"\ufb01":1,"\U0001f600":2,"":3}', '{"":3,"\ufb01":1,"\U0001f600":2}'),
]

# Pairs in no order: up to 16, which are put in one by one, and more. The last pair of a key counts.
FEW = [("b", 1), ("é", 2), ("a", 3), ("b", 4), ("", 5), ("Z", 6)]
PAIRS = [FEW, *([*[(chr(ord("z") - n), 7) for n in range(count)], *FEW] for count in (10, 11, 20)), [(str(n * 7 % 101), n) for n in range(300)]]


def in_byte_order(pairs):
    return compact(dict(sorted(dict(pairs).items(), key=lambda pair: pair[0].encode())))


def maps():
    """Maps of pairs, in both codecs. In MessagePack a key is as short as its marker says, and a number has two bytes."""
    for pairs in PAIRS:
        written = in_byte_order(pairs)
        members = ",".join(f'"{key}":{number}' for key, number in pairs)
        yield is_read("json", item_in_json("{%s}" % members), written)
        packed = [(key.encode(), number) for key, number in pairs]
        content = b"".join(bytes([0xA0 + len(key)]) + key + b"\xcd" + number.to_bytes(2, "big") for key, number in packed)
        yield is_read("pack", PACK_FRAME + b"\xde" + len(pairs).to_bytes(2, "big") + content, written)


REFUSED_TEXTS = [
    ("", "NotJson"),
    ("1 2", "NotJson"),
    ("{} x", "NotJson"),
    ("01", "NotJson"),
    ("+1", "NotJson"),
    (".5", "NotJson"),
    ("1.", "NotJson"),
    ("1e", "NotJson"),
    ("--1", "NotJson"),
    ("0x10", "NotJson"),
    ("[1,]", "NotJson"),
    ("[,1]", "NotJson"),
    ('{"a":1,}', "NotJson"),
    ('{"a"}', "NotJson"),
    ("{1:2}", "NotJson"),
    ("[1", "NotJson"),
    ("'a'", "NotJson"),
    ("True", "NotJson"),
    ("nul", "NotJson"),
    ("1//", "NotJson"),
    (b"\xef\xbb\xbf1", "NotJson"),
    (r'"\ud800"', "NotJson"),
    (r'"\udc00\ud800"', "NotJson"),
    (r'"\ud800\ud800"', "NotJson"),
    (r'"\u00g0"', "NotJson"),
    (r'"\x41"', "NotJson"),
    ('"\n"', "NotJson"),
    ('"\x00"', "NotJson"),
    ('"a', "NotJson"),
    ("1e400", "NotJson"),
    ("-1e400", "NotJson"),
    ("7" * 400, "NotJson"),
    ("[1,NaN]", "NotJson"),
    ("Infinity", "NotJson"),
    ("[1.5", "NotJson"),
    (r'["abc\u00', "NotJson"),
    ('{"a":1e400,"a":2}', "NotJson"),
    ("-0", "Fraction"),
    ("-0.0", "Fraction"),
    ("0.5", "Fraction"),
    ("-1.5", "Fraction"),
    ("1e3", "Fraction"),
    ("1E3", "Fraction"),
    ("1e-400", "Fraction"),
    ("1.0", "Fraction"),
    ("18446744073709551616", "Fraction"),
    ("-9223372036854775809", "Fraction"),
    (str(2**127 - 1), "Fraction"),
    ("7" * 300, "Fraction"),
    ('{"Latitude":37.7668}', "Fraction"),
    (r'["x\ty", 1.5]', "Fraction"),
    ('{"a":2,"a":1.5}', "Fraction"),
]

# Texts that aren't UTF-8: a byte that is in none, the front of a letter, an overlong slash, a surrogate, and what is past the last letter.
NOT_UTF8 = [b"\xff", b"\xc3", b"\xc0\xaf", b"\xed\xa0\x80", b"\xf4\x90\x80\x80"]


def nested(levels, inside=""):
    """Arrays in one another around the text."""
    return "[" * levels + inside + "]" * levels


# Items, which are one level down, and why they are refused, if they are. Who refuses speaks of the tree: not of a member that was replaced.
DEPTHS_OF_TEXTS = [
    (nested(63), None),
    (nested(64), "TooDeep"),
    (nested(65), "TooDeep"),
    (nested(126), "TooDeep"),
    (nested(127), "NotJson"),
    (nested(63, "1.5"), "Fraction"),
    (nested(64, "1.5"), "Fraction"),
    (nested(64, "1.5 x"), "NotJson"),
    (nested(62, '{"a":1}'), None),
    (nested(63, '{"a":1}'), "TooDeep"),
    ('{"a":' * 62 + "{}" + "}" * 62, None),
    ('{"a":' * 63 + "{}" + "}" * 63, "TooDeep"),
]
REPLACED = [(f'{{"a":{nested(63)},"a":1}}', '{"a":1}'), (f'{{"a":{nested(125)},"a":1}}', '{"a":1}')]

# One scratch serves text after text: strings that were unescaped leave nothing behind.
TEXTS_IN_A_ROW = [
    (r'["a\u0062c",1]', '["abc",1]'),
    (r'["\n"]', r'["\n"]'),
    ("[]", "[]"),
    (r'"\u00e9"', '"é"'),
    (r'{"a\"":{"a\"":0},"a":-1}', r'{"a":-1,"a\"":{"a\"":0}}'),
    ('""', '""'),
]


def values_in_json():
    read = TEXTS + [(str(number), str(number)) for number in WHOLE_NUMBERS] + MEMBERS
    yield "values in JSON", [is_read("json", item_in_json(text), written) for text, written in read]
    yield "maps of pairs in no order", [*maps()]
    yield "texts in a row", [is_read("json", item_in_json(text), written) for text, written in TEXTS_IN_A_ROW]
    refused = REFUSED_TEXTS + [(b'"%s"' % text, "NotJson") for text in NOT_UTF8] + [(b'{"%s":1}' % text, "NotJson") for text in NOT_UTF8]
    yield "values in JSON that are refused", [is_refused("json", item_in_json(text), why) for text, why in refused]
    depths = [(item_in_json(text), text, why) for text, why in DEPTHS_OF_TEXTS] + [(item_in_json(text), written, None) for text, written in REPLACED]
    yield "depths in JSON", [is_refused("json", frame, why) if why else is_read("json", frame, text) for frame, text, why in depths]


# The vectors of RFC 4648, section 10.
BASE64 = [
    (b"", ""),
    (b"f", "Zg=="),
    (b"fo", "Zm8="),
    (b"foo", "Zm9v"),
    (b"foob", "Zm9vYg=="),
    (b"fooba", "Zm9vYmE="),
    (b"foobar", "Zm9vYmFy"),
]


def octets(content):
    """Some bytes in MessagePack."""
    return bytes([0xC4, len(content)]) + content


# All letters of table 1 of RFC 4648.
ALPHABET = "ABCDEFGHIJKLMNOPQRSTUVWXYZabcdefghijklmnopqrstuvwxyz0123456789+/"


def bytes_in_json():
    """Bytes are written as a text."""
    vectors = [*BASE64, (base64.b64decode(ALPHABET), ALPHABET)]
    cases = [is_read("pack", PACK_FRAME + octets(content), f'"{text}"') for content, text in vectors]
    listed = PACK_FRAME + b"\x97" + b"".join(octets(content) for content, _ in BASE64)
    cases.append(is_read("pack", listed, compact([text for _, text in BASE64])))
    yield "bytes in JSON", cases


# ---- values in MessagePack

# The first, the last and a middle number of each row of the specification's table that has bytes of the number.
NUMBERS = [
    (b"\xcc\x00", 0),
    (b"\xcc\xff", 255),
    (b"\xcd\x01\x02", 258),
    (b"\xcd\xff\xff", 65535),
    (b"\xce\x80\x00\x00\x01", 2147483649),
    (b"\xce\xff\xff\xff\xff", 4294967295),
    (b"\xcf\x01\x02\x03\x04\x05\x06\x07\x08", 72623859790382856),
    (b"\xcf\x80\x00\x00\x00\x00\x00\x00\x00", 9223372036854775808),
    (b"\xcf\xff\xff\xff\xff\xff\xff\xff\xff", 18446744073709551615),
    (b"\xd0\x7f", 127),
    (b"\xd0\x80", -128),
    (b"\xd1\x01\x02", 258),
    (b"\xd1\x80\x00", -32768),
    (b"\xd2\x7f\xff\xff\xff", 2147483647),
    (b"\xd2\x80\x00\x00\x00", -2147483648),
    (b"\xd3\x01\x02\x03\x04\x05\x06\x07\x08", 72623859790382856),
    (b"\xd3\x7f\xff\xff\xff\xff\xff\xff\xff", 9223372036854775807),
    (b"\xd3\x80\x00\x00\x00\x00\x00\x00\x00", -9223372036854775808),
    (b"\xd3\xff\xff\xff\xff\xff\xff\xff\xff", -1),
]

# Markers that have a length or a count behind them: what follows, how often, and what the value is. Of equal keys one is left.
SIZES = [
    (b"\xc0", b"", 0, None),
    (b"\xc2", b"", 0, False),
    (b"\xc3", b"", 0, True),
    (b"\xc4\x00", b"", 0, b""),
    (b"\xc4\xff", b"\xff", 255, b"\xff" * 255),
    (b"\xc5\x00\x00", b"", 0, b""),
    (b"\xc5\x01\x02", b"\xc1", 258, b"\xc1" * 258),
    (b"\xc6\x00\x00\x00\x00", b"", 0, b""),
    (b"\xc6\x00\x00\x01\x02", b"\x00", 258, b"\x00" * 258),
    (b"\xd9\x00", b"", 0, ""),
    (b"\xd9\xfe", b"\xc3\xa9", 127, "é" * 127),
    (b"\xda\x00\x00", b"", 0, ""),
    (b"\xda\x01\x02", b"a", 258, "a" * 258),
    (b"\xdb\x00\x00\x00\x00", b"", 0, ""),
    (b"\xdb\x00\x00\x01\x02", b"a", 258, "a" * 258),
    (b"\xdc\x00\x00", b"", 0, []),
    (b"\xdc\x01\x02", b"\x90", 258, [[]] * 258),
    (b"\xdd\x00\x00\x00\x00", b"", 0, []),
    (b"\xdd\x00\x00\x01\x02", b"\xff", 258, [-1] * 258),
    (b"\xde\x00\x00", b"", 0, {}),
    (b"\xde\x01\x02", b"\xa0\xc0", 258, {"": None}),
    (b"\xdf\x00\x00\x00\x00", b"", 0, {}),
    (b"\xdf\x00\x00\x01\x02", b"\xd9\x01a\x80", 258, {"a": {}}),
    # Nearly as many as a frame has room for.
    (b"\xc6\x00\x00\x7d\x00", b"\xfb", 32_000, b"\xfb" * 32_000),
    (b"\xdb\x00\x00\x7d\x00", b"a", 32_000, "a" * 32_000),
    (b"\xdd\x00\x00\x7d\x00", b"\xc3", 32_000, [True] * 32_000),
    (b"\xdf\x00\x00\x3e\x80", b"\xa0\xff", 16_000, {"": -1}),
    (b"\x82", b"\xa1b\xc3\xa1a\xc0", 1, {"a": None, "b": True}),
    (b"\x84", b"\xa2\xc3\xa9\x03\xa1a\x07\xa1Z\x01\xa1a\x02", 1, {"Z": 1, "a": 2, "é": 3}),
    (b"\x8f", b"\xa1a\xc0", 15, {"a": None}),
    (b"\x92", b"\xc4\x01\xff", 2, ["/w==", "/w=="]),
    (b"\xa4", b"\xf4\x8f\xbf\xbf", 1, "\U0010ffff"),
]
LETTERS = "abcdefghijklmnopqrstuvwxyzABCDE"


def short_values():
    """Each value that its first byte has the number, the length or the count of."""
    for number in range(-32, 128):
        yield bytes([number % 256]), number
    for count in range(16):
        yield bytes([0x80 + count]) + b"".join(b"\xa1%c\xc0" % ord(key) for key in LETTERS[:count]), dict.fromkeys(LETTERS[:count])
        yield bytes([0x90 + count]) + b"\x2a" * count, [42] * count
    for count in range(32):
        yield bytes([0xA0 + count]) + LETTERS[:count].encode(), LETTERS[:count]


# Markers that the specification gives to nothing, to floats and to extensions; keys that are no texts; a byte that is in no text, an overlong slash, a
# surrogate, and what is past the last letter. Each with its place in the item.
REFUSED_BYTES = [
    (b"\xc1", "Never", 0),
    (b"\x92\x01\xc1", "Never", 2),
    (b"\x91\xc7\x00\x05", "Ext", 1),
    (b"\xc7\x01\x05\x00", "Ext", 0),
    (b"\xc8\x00\x01\x05\x00", "Ext", 0),
    (b"\xc9\x00\x00\x00\x01\x05\x00", "Ext", 0),
    (b"\xc9\x00\x00\x00\x00\x05", "Ext", 0),
    (b"\xd4\x05\x00", "Ext", 0),
    (b"\x91\xd4\x05\x00", "Ext", 1),
    (b"\xd5\x05\x00\x00", "Ext", 0),
    (b"\xd6\xff\x00\x00\x00\x00", "Ext", 0),
    (b"\xd7\xff" + bytes(8), "Ext", 0),
    (b"\xd8\x05" + bytes(16), "Ext", 0),
    (b"\xd8\x05\x00", "Ext", 0),
    (b"\xca\x3f\x80\x00\x00", "Fraction", 0),
    (b"\x92\x01\xcb\x3f\xf0\x00\x00\x00\x00\x00\x00", "Fraction", 2),
    (b"\x81\x01\x01", "Key", 1),
    (b"\x81\xc4\x01a\x01", "Key", 1),
    (b"\x82\xa1a\x01\xc0\x01", "Key", 4),
    (b"\x91\xa1\xff", "NotUtf8", 1),
    (b"\x91\xa2\xc0\xaf", "NotUtf8", 1),
    (b"\xa3\xed\xa0\x80", "NotUtf8", 0),
    (b"\xd9\x04\xf4\x90\x80\x80", "NotUtf8", 0),
    (b"\x81\xa1\xc3\x01", "NotUtf8", 1),
    (b"", "Short", 0),
    (b"\x92\x01", "Short", 2),
    (b"\x92\xc0\xce\x00\x00\x00", "Short", 2),
    (b"\x82\xa0\xc0\xa3ab", "Short", 3),
    # Counts that no bytes fill; some of these count to 2^32 - 1.
    (b"\xdb\xff\xff\xff\xff", "Short", 0),
    (b"\xc6\xff\xff\xff\xff", "Short", 0),
    (b"\xdd\xff\xff\xff\xff", "Short", 5),
    (b"\xdf\xff\xff\xff\xff", "Short", 5),
    (b"\xdd\xff\xff\xff\xff\xc1", "Never", 5),
    (b"\xdd\xff\xff\xff\xff\xdf\xff\xff\xff\xff", "Short", 10),
    (b"\xdf\xff\xff\xff\xff\xdb\xff\xff\xff\xff", "Short", 5),
    # The first in reading order counts, and not what a later one of the same key would replace.
    (b"\x92\xc1\xca\x00\x00\x00\x00", "Never", 1),
    (b"\x82\xa1a\xca\x00\x00\x00\x00\xa1a\x01", "Fraction", 3),
]

# The item's parts, one in each row. Where the bytes end within one, that is where they are refused.
PARTS = [b"\x83", b"\xa1a", b"\xcd\x01\x02", b"\xd9\x02bc", b"\x92", b"\xc4\x02\xff\xff", b"\xc0", b"\xa0", b"\xd3\xff\xff\xff\xff\xff\xff\xff\xff"]


def cut_short():
    """The item, cut at each of its bytes."""
    whole = b"".join(PARTS)
    for at, part in enumerate(PARTS):
        begin = len(b"".join(PARTS[:at]))
        for size in range(begin, begin + len(part)):
            yield refused_at(whole[:size], "Short", begin)


# Lists and maps, one in the other, round a last byte: 63 in a frame are read, and the next is refused at its place.
DEPTHS_OF_BYTES = [
    (b"\x91" * 63 + b"\xc0", nested(63, "null"), None),
    (b"\x81\xa0" * 63 + b"\xc0", '{"":' * 63 + "null" + "}" * 63, None),
    (b"\x91" * 62 + b"\x80", nested(62, "{}"), None),
    (b"\x91" * 64 + b"\xc0", "TooDeep", 63),
    (b"\x81\xa0" * 64 + b"\xc0", "TooDeep", 126),
    (b"\x91" * 63 + b"\x80", "TooDeep", 63),
    (b"\x91" * 127 + b"\xc0", "TooDeep", 63),
    (b"\x82\xa1a" + b"\x91" * 63 + b"\xc0\xa1a\xc0", "TooDeep", 65),
]


def image(value):
    """What a value is in JSON."""
    return compact(base64.b64encode(value).decode() if isinstance(value, bytes) else value)


def values_in_pack():
    sizes = [(head + part * times, value) for head, part, times, value in SIZES]
    yield "values in MessagePack", [is_read("pack", PACK_FRAME + item, image(value)) for item, value in [*short_values(), *NUMBERS, *sizes]]
    yield "values in MessagePack that are refused", [refused_at(*case) for case in REFUSED_BYTES]
    yield "values in MessagePack that are cut short", [*cut_short()]
    depths = [is_read("pack", PACK_FRAME + item, what) if place is None else refused_at(item, what, place) for item, what, place in DEPTHS_OF_BYTES]
    yield "depths in MessagePack", depths


# ---- how values are packed

# A spelling of a value, the value, and how msgpack packs it: numbers from 0 up, numbers below 0, and then a text, lists and maps.
SHORTEST = [
    (b"\xcd\x00\x05", "5", b"\x05"),
    (b"\xcc\x7f", "127", b"\x7f"),
    (b"\xd0\x7f", "127", b"\x7f"),
    (b"\xcd\x00\x80", "128", b"\xcc\x80"),
    (b"\xd1\x00\xff", "255", b"\xcc\xff"),
    (b"\xd1\x01\x00", "256", b"\xcd\x01\x00"),
    (b"\xd2\x00\x00\xff\xff", "65535", b"\xcd\xff\xff"),
    (b"\xcf\x00\x00\x00\x00\x00\x01\x00\x00", "65536", b"\xce\x00\x01\x00\x00"),
    (b"\xd3\x00\x00\x00\x00\xff\xff\xff\xff", "4294967295", b"\xce\xff\xff\xff\xff"),
    (b"\xd3\x00\x00\x00\x01\x00\x00\x00\x00", "4294967296", b"\xcf\x00\x00\x00\x01\x00\x00\x00\x00"),
    (b"\xcf\xff\xff\xff\xff\xff\xff\xff\xff", "18446744073709551615", b"\xcf\xff\xff\xff\xff\xff\xff\xff\xff"),
    (b"\xd3\xff\xff\xff\xff\xff\xff\xff\xff", "-1", b"\xff"),
    (b"\xd0\xe0", "-32", b"\xe0"),
    (b"\xd1\xff\xdf", "-33", b"\xd0\xdf"),
    (b"\xd2\xff\xff\xff\x80", "-128", b"\xd0\x80"),
    (b"\xd3\xff\xff\xff\xff\xff\xff\xff\x7f", "-129", b"\xd1\xff\x7f"),
    (b"\xd2\xff\xff\x80\x00", "-32768", b"\xd1\x80\x00"),
    (b"\xd3\xff\xff\xff\xff\xff\xff\x7f\xff", "-32769", b"\xd2\xff\xff\x7f\xff"),
    (b"\xd3\xff\xff\xff\xff\x80\x00\x00\x00", "-2147483648", b"\xd2\x80\x00\x00\x00"),
    (b"\xd3\xff\xff\xff\xff\x7f\xff\xff\xff", "-2147483649", b"\xd3\xff\xff\xff\xff\x7f\xff\xff\xff"),
    (b"\xd3\x80\x00\x00\x00\x00\x00\x00\x00", "-9223372036854775808", b"\xd3\x80\x00\x00\x00\x00\x00\x00\x00"),
    (b"\xda\x00\x07gr\xc3\xbc\xc3\x9fe", '"grüße"', b"\xa7gr\xc3\xbc\xc3\x9fe"),
    (b"\xdf\x00\x00\x00\x02\xa1a\x81\xa1b\xc0\xa1c\xdc\x00\x01\xc3", '{"a":{"b":null},"c":[true]}', b"\x82\xa1a\x81\xa1b\xc0\xa1c\x91\xc3"),
    (b"\x84\xa2\xc3\xa9\x03\xa1a\x07\xa1Z\x01\xa1a\x02", '{"Z":1,"a":2,"é":3}', b"\x83\xa1Z\x01\xa1a\x02\xa2\xc3\xa9\x03"),
    (b"\x92\xc2\xdd\x00\x00\x00\x00", "[false,[]]", b"\x92\xc2\x90"),
    # A list part by part.
    (
        b"\xdc\x00\x08\xc0\xc3\xc2\xcd\x01\x2c\xa1a\x81\xa1b\xff\xff\xff",
        '[null,true,false,300,"a",{"b":-1},-1,-1]',
        b"\x98\xc0\xc3\xc2\xcd\x01\x2c\xa1a\x81\xa1b\xff\xff\xff",
    ),
]

# The head of what msgpack packs of a text, a list and a map of so many, and how many bytes all is.
HEADS = [
    ("text", 0, b"\xa0", 1),
    ("text", 31, b"\xbf", 32),
    ("text", 32, b"\xd9\x20", 34),
    ("text", 255, b"\xd9\xff", 257),
    ("text", 256, b"\xda\x01\x00", 259),
    ("list", 15, b"\x9f", 16),
    ("list", 16, b"\xdc\x00\x10", 19),
    ("map", 0, b"\x80", 1),
    ("map", 15, b"\x8f", 106),
    ("map", 16, b"\xde\x00\x10", 115),
]
LONG_HEADS = [
    ("text", 65535, b"\xda\xff\xff", 65538),
    ("text", 65536, b"\xdb\x00\x01\x00\x00", 65541),
    ("text", 66051, b"\xdb\x00\x01\x02\x03", 66056),
    ("list", 65535, b"\xdc\xff\xff", 65538),
    ("list", 65536, b"\xdd\x00\x01\x00\x00", 65541),
    ("list", 66051, b"\xdd\x00\x01\x02\x03", 66056),
    ("map", 65535, b"\xde\xff\xff", 458748),
    ("map", 65536, b"\xdf\x00\x01\x00\x00", 458757),
    ("map", 66051, b"\xdf\x00\x01\x02\x03", 462362),
]


def filled(kind, count, head, size):
    """A text of letters a, a list of nulls, or a map of them whose keys are numbers: in JSON, and in MessagePack."""
    keys = ["%05d" % key for key in range(count)]
    text = {"text": lambda: "a" * count, "list": lambda: [None] * count, "map": lambda: dict.fromkeys(keys)}[kind]()
    filling = {"text": lambda: b"a" * count, "list": lambda: b"\xc0" * count, "map": lambda: b"".join(b"\xa5%s\xc0" % key.encode() for key in keys)}[kind]()
    assert len(head + filling) == size
    return compact(text), head + filling


def values_are_packed():
    yield "values are packed", [(JSON_WRITTEN % text, PACK_FRAME + shortest) for _, text, shortest in SHORTEST]
    heads = [filled(*head) for head in HEADS]
    yield "heads of values", [(JSON_WRITTEN % text, PACK_FRAME + packed) for text, packed in heads]


def other_spellings():
    yield "values in other spellings", [is_read("pack", PACK_FRAME + spelled, text) for spelled, text, _ in SHORTEST]


FRAMES = dict([*values_in_json(), *bytes_in_json(), *values_in_pack(), *other_spellings()])
PACKED = dict(values_are_packed())
# Messages in JSON, and how many bytes each has as a frame in MessagePack.
LONG = [(JSON_WRITTEN % filled(*head)[0], PLACE + head[3]) for head in LONG_HEADS]
# What is echoed in MessagePack: bytes in a spelling, and as msgpack packs them.
ECHOED = [
    (b"\xc6\x00\x00\x00\x00", b"\xc4\x00"),
    (b"\xc6\x00\x00\x00\x01\xff", b"\xc4\x01\xff"),
    (b"\xc5\x00\xff" + b"a" * 255, b"\xc4\xff" + b"a" * 255),
    (b"\xc6\x00\x00\x01\x00" + b"a" * 256, b"\xc5\x01\x00" + b"a" * 256),
    (b"\x92\xc4\x02\x00\xff\x81\xa1a\xc4\x00", b"\x92\xc4\x02\x00\xff\x81\xa1a\xc4\x00"),
    (
        b"\xdf\x00\x00\x00\x02\xa1a\x81\xa1b\xc0\xa1c\xdc\x00\x02\xc3\xc4\x01\x00",
        b"\x82\xa1a\x81\xa1b\xc0\xa1c\x92\xc3\xc4\x01\x00",
    ),
]
