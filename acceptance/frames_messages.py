"""Messages as frames: the tables of `frames.py` in which the whole frame counts.

The frames in JSON are after the examples of HubProtocol.md as remembered: no copy of it was at hand. Those in MessagePack are as Python's msgpack
1.0.3 packs the arrays of that document, with a map's keys in byte order. What isn't a value, or is in another spelling, is by the MessagePack
specification. What must be there, of which kind, and which refusal comes first is by the tables of docs/protocol.md, as is how JSON is written.

FRAMES and PACKED are as in frames_values.py. MOST is the limit of a frame, and BROKEN has streams that end in no frame."""
import itertools

MOST = 32_768

# The messages of HubProtocol.md in both codecs. The first text is as some client may write it, the second as ours does.
EXAMPLES = [
    (
        '{"type":1,"headers":{"Foo":"Bar"},"invocationId":"xyz","target":"method","arguments":[42],"streamIds":["1"]}',
        '{"arguments":[42],"headers":{"Foo":"Bar"},"invocationId":"xyz","streamIds":["1"],"target":"method","type":1}',
        b"\x96\x01\x81\xa3Foo\xa3Bar\xa3xyz\xa6method\x91*\x91\xa11",
    ),
    ('{"type":1,"target":"method","arguments":[42]}', '{"arguments":[42],"target":"method","type":1}', b"\x96\x01\x80\xc0\xa6method\x91*\x90"),
    (
        '{"type":4,"invocationId":"xyz","target":"method","arguments":[42]}',
        '{"arguments":[42],"invocationId":"xyz","target":"method","type":4}',
        b"\x96\x04\x80\xa3xyz\xa6method\x91*\x90",
    ),
    ('{"type":2,"invocationId":"xyz","item":42}', '{"invocationId":"xyz","item":42,"type":2}', b"\x94\x02\x80\xa3xyz*"),
    ('{"type":3,"invocationId":"xyz","error":"Error"}', '{"error":"Error","invocationId":"xyz","type":3}', b"\x95\x03\x80\xa3xyz\x01\xa5Error"),
    ('{"type":3,"invocationId":"xyz"}', '{"invocationId":"xyz","type":3}', b"\x94\x03\x80\xa3xyz\x02"),
    ('{"type":3,"invocationId":"xyz","result":42}', '{"invocationId":"xyz","result":42,"type":3}', b"\x95\x03\x80\xa3xyz\x03*"),
    ('{"type":3,"invocationId":"xyz","result":null}', '{"invocationId":"xyz","result":null,"type":3}', b"\x95\x03\x80\xa3xyz\x03\xc0"),
    ('{"type":5,"invocationId":"xyz"}', '{"invocationId":"xyz","type":5}', b"\x93\x05\x80\xa3xyz"),
    ('{"type":6}', '{"type":6}', b"\x91\x06"),
    ('{"type":7}', '{"type":7}', b"\x93\x07\xc0\xc2"),
    ('{"type":7,"error":"xyz","allowReconnect":true}', '{"allowReconnect":true,"error":"xyz","type":7}', b"\x93\x07\xa3xyz\xc3"),
    ('{"type":8,"sequenceId":1394}', '{"sequenceId":1394,"type":8}', b"\x92\x08\xcd\x05r"),
    ('{"type":9,"sequenceId":1234}', '{"sequenceId":1234,"type":9}', b"\x92\x09\xcd\x04\xd2"),
    (
        '{"type":9,"sequenceId":1234,"received":18446744073709551615}',
        '{"received":18446744073709551615,"sequenceId":1234,"type":9}',
        b"\x93\x09\xcd\x04\xd2\xcf\xff\xff\xff\xff\xff\xff\xff\xff",
    ),
]


def examples():
    yield "examples in JSON", [("json", spelled.encode(), "message " + text) for spelled, text, _ in EXAMPLES]
    yield "examples in MessagePack", [("pack", frame, "message " + text) for _, text, frame in EXAMPLES]


# ---- messages in JSON

# Further examples of HubProtocol.md.
READ_IN_JSON = [
    (
        '{ "type": 1, "invocationId": "123", "target": "Send",\n                "arguments": [ 42, "Test Message" ] }',
        '{"arguments":[42,"Test Message"],"invocationId":"123","target":"Send","type":1}',
    ),
    ('{ "type": 1, "target": "Send", "arguments": [ 42, "Test Message" ] }', '{"arguments":[42,"Test Message"],"target":"Send","type":1}'),
    (
        '{ "type": 1, "headers": { "Foo": "Bar" }, "invocationId": "123",\n                "target": "Send", "arguments": [ 42, "Test Message" ] }',
        '{"arguments":[42,"Test Message"],"headers":{"Foo":"Bar"},"invocationId":"123","target":"Send","type":1}',
    ),
    (
        '{ "type": 1, "invocationId": "123", "target": "Send",\n                "arguments": [ 42 ], "streamIds": [ "1" ] }',
        '{"arguments":[42],"invocationId":"123","streamIds":["1"],"target":"Send","type":1}',
    ),
    (
        '{ "type": 4, "invocationId": "123", "target": "Send",\n                "arguments": [ 42, "Test Message" ] }',
        '{"arguments":[42,"Test Message"],"invocationId":"123","target":"Send","type":4}',
    ),
    ('{ "type": 3, "invocationId": "123", "error": "It didn\'t work!" }', '{"error":"It didn\'t work!","invocationId":"123","type":3}'),
    ('{ "type": 7, "error": "Connection closed because of an error!" }', '{"error":"Connection closed because of an error!","type":7}'),
    (
        '{ "type": 7, "error": "Connection closed because of an error!",\n                "allowReconnect": true }',
        '{"allowReconnect":true,"error":"Connection closed because of an error!","type":7}',
    ),
    ('{ "type": 2, "invocationId": "123", "item": 42 }', '{"invocationId":"123","item":42,"type":2}'),
    ('{ "type": 3, "invocationId": "123" }', '{"invocationId":"123","type":3}'),
    ('{ "type": 3, "invocationId": "123", "result": 42 }', '{"invocationId":"123","result":42,"type":3}'),
    ('{ "type": 5, "invocationId": "123" }', '{"invocationId":"123","type":5}'),
    ('{ "type": 6 }', '{"type":6}'),
    ('{ "type": 8, "sequenceId": 1394 }', '{"sequenceId":1394,"type":8}'),
    ('{ "type": 9, "sequenceId": 1234 }', '{"sequenceId":1234,"type":9}'),
    # Texts with escapes, each before one that has none.
    (r'{"type":3,"invocationId":"a\u0062c","error":"first\n"}', r'{"error":"first\n","invocationId":"abc","type":3}'),
    (r'{"type":7,"error":"\t"}', r'{"error":"\t","type":7}'),
    ('{"type":5,"invocationId":""}', '{"invocationId":"","type":5}'),
    # White space around it, the text and the order of properties, what is passed over, and what is null where it may be absent.
    ('\r\n\t { "sequenceId" : 18446744073709551615 , "type" : 8 } \r\n', '{"sequenceId":18446744073709551615,"type":8}'),
    (r'{"\u0074ype":6}', '{"type":6}'),
    ('{"type":6,"headers":1,"received":[]}', '{"type":6}'),
    ('{"type":1,"type":6}', '{"type":6}'),
    (
        '{"type":1,"headers":null,"invocationId":null,"streamIds":null,"target":"t","arguments":[]}',
        '{"arguments":[],"target":"t","type":1}',
    ),
    (
        '{"type":1,"headers":{"b":"2","a":"1"},"streamIds":[""],"target":"t","arguments":[]}',
        '{"arguments":[],"headers":{"a":"1","b":"2"},"streamIds":[""],"target":"t","type":1}',
    ),
    (
        '{"type":1,"headers":{"b":"1","é":"2","a":"3","b":"4","":"5"},"target":"t","arguments":[]}',
        '{"arguments":[],"headers":{"":"5","a":"3","b":"4","é":"2"},"target":"t","type":1}',
    ),
    ('{"type":1,"headers":{},"invocationId":"","streamIds":[],"target":"","arguments":[]}', '{"arguments":[],"invocationId":"","target":"","type":1}'),
    ('{"type":4,"headers":null,"invocationId":"i","streamIds":null,"target":"t","arguments":[]}', '{"arguments":[],"invocationId":"i","target":"t","type":4}'),
    (
        '{"type":4,"headers":{"a":""},"invocationId":"i","streamIds":["1","2"],"target":"t","arguments":[null]}',
        '{"arguments":[null],"headers":{"a":""},"invocationId":"i","streamIds":["1","2"],"target":"t","type":4}',
    ),
    ('{"type":2,"headers":null,"invocationId":"i","item":null}', '{"invocationId":"i","item":null,"type":2}'),
    ('{"type":2,"headers":{"a":"1"},"invocationId":"i","item":{}}', '{"headers":{"a":"1"},"invocationId":"i","item":{},"type":2}'),
    ('{"type":3,"headers":null,"invocationId":"i","error":null}', '{"invocationId":"i","type":3}'),
    ('{"type":3,"error":null,"result":null,"invocationId":"i"}', '{"invocationId":"i","result":null,"type":3}'),
    ('{"type":3,"headers":{"a":"1"},"error":"","invocationId":"i"}', '{"error":"","headers":{"a":"1"},"invocationId":"i","type":3}'),
    ('{"type":5,"headers":{"a":"1"},"invocationId":""}', '{"headers":{"a":"1"},"invocationId":"","type":5}'),
    ('{"type":7,"error":null,"allowReconnect":null}', '{"type":7}'),
    ('{"type":7,"error":"","allowReconnect":false}', '{"error":"","type":7}'),
    ('{"type":8,"sequenceId":0}', '{"sequenceId":0,"type":8}'),
    ('{"type":9,"sequenceId":0,"received":0}', '{"received":0,"sequenceId":0,"type":9}'),
    # A `received` of another kind counts as absent.
    *(('{"type":9,"received":%s,"sequenceId":1}' % kind, '{"sequenceId":1,"type":9}') for kind in ["null", '"1"', "-1", "true", "[]", "{}"]),
]

REFUSED_IN_JSON = [
    ("", "NotJson"),
    ('{"type":6', "NotJson"),
    ('{"type":6}{}', "NotJson"),
    ('{"type":3,"invocationId":"', "NotJson"),
    ('{"type":6} x', "NotJson"),
    ('\ufeff{"type":6}', "NotJson"),
    ('{"type":6.0}', "Fraction"),
    ('{"type":6e0}', "Fraction"),
    ('{"type":6,"x":1e2}', "Fraction"),
    ('{"type":6,"x":"\ud800"}'.encode("utf-8", "surrogatepass"), "NotJson"),
    ('[{"type":6}]', "NotObject"),
    ("6", "NotObject"),
    ('"Hello world!"', "NotObject"),
    ("null", "NotObject"),
    ("true", "NotObject"),
    ("[]", "NotObject"),
    ("1.5", "Fraction"),
    ('{}', "Missing type"),
    ('{"Type":6}', "Missing type"),
    *(('{"type":%s}' % kind, "Wrong type") for kind in ["null", '"6"', "true", "[6]", "{}"]),
    ('{"type":6,"type":null}', "Wrong type"),
    ('{"type":8,"sequenceId":1.5}', "Fraction"),
    ('{"type":8,"sequenceId":-9223372036854775809}', "Fraction"),
    # What is wrong beside something else that is wrong.
    ('{"type":1,"headers":1,"invocationId":1}', "Wrong headers"),
    ('{"type":1,"streamIds":1,"target":1}', "Wrong target"),
    ('{"type":1,"streamIds":1,"invocationId":"1"}', "Missing target"),
    ('{"type":4,"arguments":1}', "Missing invocationId"),
    ('{"type":3,"error":1,"result":2,"invocationId":"i"}', "Wrong error"),
    ('{"type":3,"error":"","result":null,"invocationId":"i"}', "Both"),
    ('{ "type": 3, "invocationId": "123", "result": 42,\n                "error": "It didn\'t work!" }', "Both"),
    ('{"type":7,"error":1,"allowReconnect":1}', "Wrong error"),
    ('{"type":9,"received":1}', "Missing sequenceId"),
]
UNKNOWN_IN_JSON = [
    ('{"type":0}', 0),
    ('{"type":10,"invocationId":1}', 10),
    ('{"type":-1}', -1),
    ('{"type":18446744073709551615}', 18446744073709551615),
    ('{"type":-9223372036854775808,"headers":0}', -9223372036854775808),
    ('{"type":6,"type":11}', 11),
]

# Of each kind some texts that aren't of it. Null is another kind where a property must be there.
OTHER_KINDS = {
    "text": ["1", "true", "[]", '{"a":"b"}'],
    "texts": ["1", "true", '"1"', "{}", '["1",2]', "[null]", '[["1"]]'],
    "list": ["1", "false", '"1"', "{}"],
    "headers": ["1", "true", '"a"', "[]", '["a"]', '{"a":1}', '{"a":null}', '{"a":"b","c":["d"]}'],
    "truth": ["1", "0", '"true"', "[]", "{}"],
    "number": ['"1"', "true", "[]", "{}", "-1", "-9223372036854775808"],
    "value": [],
}
HEADERS = ("headers", "headers", False)
ID = ("invocationId", "text", True)
REST_OF_CALL = [("target", "text", True), ("arguments", "list", True), ("streamIds", "texts", False)]
# The properties of each type in the order of the table in docs/protocol.md: the name, the kind, and whether it must be there. The `received` of a
# Sequence isn't refused.
PROPERTIES = {
    1: [HEADERS, ("invocationId", "text", False), *REST_OF_CALL],
    2: [HEADERS, ID, ("item", "value", True)],
    3: [HEADERS, ID, ("error", "text", False)],
    4: [HEADERS, ID, *REST_OF_CALL],
    5: [HEADERS, ID],
    6: [],
    7: [("error", "text", False), ("allowReconnect", "truth", False)],
    8: [("sequenceId", "number", True)],
    9: [("sequenceId", "number", True)],
}
RIGHT = {"text": '"t"', "texts": '["1"]', "list": "[]", "headers": '{"a":"b"}', "truth": "true", "number": "1", "value": "1"}


def object_of(number, properties):
    """A frame of this type. Its properties stand in the other order than that of the table."""
    members = [f'"{name}":{text}' for name, text in reversed(properties)]
    return ("{" + ",".join([*members, f'"type":{number}']) + "}").encode()


def properties_refused():
    """Each property of each type absent and of another kind, and of two that are amiss the first."""
    for number, listed in PROPERTIES.items():
        right = [(name, RIGHT[kind]) for name, kind, _ in listed]
        for at, (name, kind, must) in enumerate(listed):
            if must:
                yield "json", object_of(number, right[:at] + right[at + 1 :]), f"refused Missing {name}"
            for text in OTHER_KINDS[kind] + ["null"] * (must and kind != "value"):
                yield "json", object_of(number, [*right[:at], (name, text), *right[at + 1 :]]), f"refused Wrong {name}"
        for (at, one), (later, other) in itertools.combinations(enumerate(listed), 2):
            if OTHER_KINDS[one[1]] and OTHER_KINDS[other[1]]:
                wrong = list(right)
                wrong[at], wrong[later] = (one[0], OTHER_KINDS[one[1]][0]), (other[0], OTHER_KINDS[other[1]][0])
                yield "json", object_of(number, wrong), f"refused Wrong {one[0]}"


def messages_in_json():
    yield "messages in JSON", [("json", spelled.encode(), "message " + text) for spelled, text in READ_IN_JSON]
    yield "unknown types in JSON", [("json", spelled.encode(), f"unknown {number}") for spelled, number in UNKNOWN_IN_JSON]
    refused = [(spelled if isinstance(spelled, bytes) else spelled.encode(), why) for spelled, why in REFUSED_IN_JSON]
    yield "messages in JSON that are refused", [("json", spelled, "refused " + why) for spelled, why in refused]
    yield "properties that are refused", [*properties_refused()]
    whole = b'{"type":1,"target":"t","arguments":["\\u00e9",10,null]}'
    yield "messages in JSON that are cut short", [("json", whole[:size], "refused NotJson") for size in range(len(whole))]


def depths_in_json():
    """A frame of 64 levels is read, and one of 65 isn't."""
    deep, deeper = "[" * 63 + "]" * 63, "[" * 64 + "]" * 64
    frames = ['{"type":1,"target":"t","arguments":%s}', '{"type":2,"invocationId":"i","item":%s}', '{"type":3,"invocationId":"i","result":%s}']
    frames.append('{"type":6,"other":%s}')
    texts = ['{"arguments":%s,"target":"t","type":1}', '{"invocationId":"i","item":%s,"type":2}', '{"invocationId":"i","result":%s,"type":3}']
    cases = [("json", (frame % deep).encode(), "message " + text % deep) for frame, text in zip(frames, texts)]
    cases.append(("json", (frames[3] % deep).encode(), 'message {"type":6}'))
    yield "depths of messages in JSON", cases + [("json", (frame % deeper).encode(), "refused TooDeep") for frame in frames]


# ---- messages in MessagePack

# A frame, its message in JSON, and the frame as ours writes it, if that is another one.
READ_IN_PACK = [
    # Calls.
    (b"\x96\x01\x80\xa1i\xa1t\x90\x90", '{"arguments":[],"invocationId":"i","target":"t","type":1}', None),
    (b"\x96\x01\x80\xc0\xa1t\x92*\xa1x\x90", '{"arguments":[42,"x"],"target":"t","type":1}', None),
    (b"\x95\x01\x80\xa1i\xa1t\x90", '{"arguments":[],"invocationId":"i","target":"t","type":1}', b"\x96\x01\x80\xa1i\xa1t\x90\x90"),
    (
        b"\x98\x01\x80\xc0\xa1t\x90\x92\xa11\xa12\xc0\x07",
        '{"arguments":[],"streamIds":["1","2"],"target":"t","type":1}',
        b"\x96\x01\x80\xc0\xa1t\x90\x92\xa11\xa12",
    ),
    (
        b"\x96\x01\x82\xa1b\xa12\xa1a\xa11\xa1i\xa1t\x90\x90",
        '{"arguments":[],"headers":{"a":"1","b":"2"},"invocationId":"i","target":"t","type":1}',
        b"\x96\x01\x82\xa1a\xa11\xa1b\xa12\xa1i\xa1t\x90\x90",
    ),
    (b"\x96\x04\x80\xa1i\xa1t\x90\x90", '{"arguments":[],"invocationId":"i","target":"t","type":4}', None),
    (b"\x95\x04\x80\xa1i\xa1t\x91\xc0", '{"arguments":[null],"invocationId":"i","target":"t","type":4}', b"\x96\x04\x80\xa1i\xa1t\x91\xc0\x90"),
    (
        b"\x97\x04\x81\xa1a\xa0\xa0\xa0\x90\x91\xa0\x00",
        '{"arguments":[],"headers":{"a":""},"invocationId":"","streamIds":[""],"target":"","type":4}',
        b"\x96\x04\x81\xa1a\xa0\xa0\xa0\x90\x91\xa0",
    ),
    # Items, completions and cancellations.
    (b"\x94\x02\x80\xa1i\xc0", '{"invocationId":"i","item":null,"type":2}', None),
    (
        b"\x95\x02\x82\xa1b\xa12\xa1a\xa11\xa1i\x82\xa1b\x01\xa1a\x91\x03\x09",
        '{"headers":{"a":"1","b":"2"},"invocationId":"i","item":{"a":[3],"b":1},"type":2}',
        b"\x94\x02\x82\xa1a\xa11\xa1b\xa12\xa1i\x82\xa1a\x91\x03\xa1b\x01",
    ),
    (b"\x95\x03\x80\xa1i\x01\xa1e", '{"error":"e","invocationId":"i","type":3}', None),
    (
        b"\x96\x03\x82\xa1b\xa12\xa1a\xa11\xa1i\x01\xa0\x01",
        '{"error":"","headers":{"a":"1","b":"2"},"invocationId":"i","type":3}',
        b"\x95\x03\x82\xa1a\xa11\xa1b\xa12\xa1i\x01\xa0",
    ),
    (b"\x94\x03\x80\xa1i\x02", '{"invocationId":"i","type":3}', None),
    (b"\x95\x03\x80\xa1i\x02\xa1e", '{"invocationId":"i","type":3}', b"\x94\x03\x80\xa1i\x02"),
    (b"\x96\x03\x80\xa1i\x02\xc0\x01", '{"invocationId":"i","type":3}', b"\x94\x03\x80\xa1i\x02"),
    (b"\x95\x03\x80\xa1i\x03\xc0", '{"invocationId":"i","result":null,"type":3}', None),
    (b"\x96\x03\x80\xa1i\x03\x91\x80\x01", '{"invocationId":"i","result":[{}],"type":3}', b"\x95\x03\x80\xa1i\x03\x91\x80"),
    (b"\x93\x05\x80\xa1i", '{"invocationId":"i","type":5}', None),
    (
        b"\x94\x05\x82\xa1b\xa12\xa1a\xa11\xa1i\xc0",
        '{"headers":{"a":"1","b":"2"},"invocationId":"i","type":5}',
        b"\x93\x05\x82\xa1a\xa11\xa1b\xa12\xa1i",
    ),
    # What no invocation has.
    (b"\x91\x06", '{"type":6}', None),
    (b"\x93\x06\xc0\x01", '{"type":6}', b"\x91\x06"),
    (b"\x92\x07\xc0", '{"type":7}', b"\x93\x07\xc0\xc2"),
    (b"\x92\x07\xa1e", '{"error":"e","type":7}', b"\x93\x07\xa1e\xc2"),
    (b"\x93\x07\xc0\xc3", '{"allowReconnect":true,"type":7}', None),
    (b"\x93\x07\xa1e\xc2", '{"error":"e","type":7}', None),
    (b"\x94\x07\xa1e\xc3\xc0", '{"allowReconnect":true,"error":"e","type":7}', b"\x93\x07\xa1e\xc3"),
    (b"\x92\x08\x05", '{"sequenceId":5,"type":8}', None),
    (
        b"\x93\x08\xcf\xff\xff\xff\xff\xff\xff\xff\xff\xc0",
        '{"sequenceId":18446744073709551615,"type":8}',
        b"\x92\x08\xcf\xff\xff\xff\xff\xff\xff\xff\xff",
    ),
    (b"\x92\x09\x01", '{"sequenceId":1,"type":9}', None),
    (b"\x93\x09\x01\x02", '{"received":2,"sequenceId":1,"type":9}', None),
    (
        b"\x94\x09\x00\xcf\xff\xff\xff\xff\xff\xff\xff\xff\x07",
        '{"received":18446744073709551615,"sequenceId":0,"type":9}',
        b"\x93\x09\x00\xcf\xff\xff\xff\xff\xff\xff\xff\xff",
    ),
    (b"\x93\x09\x01\xc3", '{"sequenceId":1,"type":9}', b"\x92\x09\x01"),
    (b"\x93\x09\x01\xc0", '{"sequenceId":1,"type":9}', b"\x92\x09\x01"),
    (b"\x93\x09\x01\xff", '{"sequenceId":1,"type":9}', b"\x92\x09\x01"),
    (b"\x94\x09\x01\xa12\x03", '{"sequenceId":1,"type":9}', b"\x92\x09\x01"),
    # Spellings that no writer writes, by the MessagePack specification: longer markers, counts and numbers, keys in another order, a key twice.
    (b"\xdc\x00\x01\xcc\x06", '{"type":6}', b"\x91\x06"),
    (
        b"\xdd\x00\x00\x00\x02\xd3\x00\x00\x00\x00\x00\x00\x00\x08\xcf\x00\x00\x00\x00\x00\x00\x00\x05",
        '{"sequenceId":5,"type":8}',
        b"\x92\x08\x05",
    ),
    (b"\x93\x05\xde\x00\x00\xd9\x01i", '{"invocationId":"i","type":5}', b"\x93\x05\x80\xa1i"),
    (
        b"\x93\x05\xdf\x00\x00\x00\x03\xda\x00\x01b\xa11\xa1a\xa12\xa1b\xdb\x00\x00\x00\x013\xa1i",
        '{"headers":{"a":"2","b":"3"},"invocationId":"i","type":5}',
        b"\x93\x05\x82\xa1a\xa12\xa1b\xa13\xa1i",
    ),
    (b"\x94\xd0\x02\x80\xa1i\xdd\x00\x00\x00\x01\xd0\xff", '{"invocationId":"i","item":[-1],"type":2}', b"\x94\x02\x80\xa1i\x91\xff"),
    (b"\x95\x03\x80\xa1i\xd2\x00\x00\x00\x01\xa1e", '{"error":"e","invocationId":"i","type":3}', b"\x95\x03\x80\xa1i\x01\xa1e"),
    # A key twice, of which only the last is a text.
    (
        b"\x93\x05\x82\xa1a\x01\xa1a\xa12\xa1i",
        '{"headers":{"a":"2"},"invocationId":"i","type":5}',
        b"\x93\x05\x81\xa1a\xa12\xa1i",
    ),
]

# Of these the JSON has bytes as a text, from which no frame comes back.
READ_WITH_BYTES = [
    (b"\x95\x03\x80\xa11\x03\xc4\x04foob", '{"invocationId":"1","result":"Zm9vYg==","type":3}'),
    (b"\x96\x01\x80\xc0\xa1t\x92\xc4\x01f\xa4Zg==\x90", '{"arguments":["Zg==","Zg=="],"target":"t","type":1}'),
    (
        b"\x95\x02\x82\xa1b\xa12\xa1a\xa11\xa1i\x82\xa1b\x01\xa1a\x91\xc4\x02\x01\x02\x09",
        '{"headers":{"a":"1","b":"2"},"invocationId":"i","item":{"a":["AQI="],"b":1},"type":2}',
    ),
    (b"\x94\xd0\x02\x80\xa1i\xc6\x00\x00\x00\x01\xff", '{"invocationId":"i","item":"/w==","type":2}'),
]

# The value, what stands behind it, the array and its type.
REFUSED_IN_PACK = [
    (b"", "Short 0"),
    (b"\x93\x02", "Short 2"),
    (b"\xdd\xff\xff\xff\xff", "Short 5"),
    (b"\xc1", "Never 0"),
    (b"\x91" * 65 + b"\xc0", "TooDeep 64"),
    (b"\x94\x02\x80\xa11\xcb?\xf8\x00\x00\x00\x00\x00\x00", "Fraction 5"),
    (b"\x91\xca@\xc0\x00\x00", "Fraction 1"),
    (b"\x92\x06\xd4\x01\x02", "Ext 2"),
    (b"\x93\x05\x81\x01\xa1i", "Key 3"),
    (b"\x93\x05\x80\xa1\xff", "NotUtf8 3"),
    (b"\x91\x06\xc1", "Trailing 2"),
    (b"\x91\x06\x91\x06", "Trailing 2"),
    (b"\xc0\xc0", "Trailing 1"),
    (b"\x90\x06", "Trailing 1"),
    (b"\x06", "NotArray"),
    (b"\xc0", "NotArray"),
    (b"\xc3", "NotArray"),
    (b"\xa1x", "NotArray"),
    (b"\x81\xa4type\x06", "NotArray"),
    (b"\xc4\x01\x06", "NotArray"),
    (b"\x90", "Missing type"),
    (b"\x91\xc0", "Wrong type"),
    (b"\x91\xa16", "Wrong type"),
    (b"\x91\x91\x06", "Wrong type"),
    (b"\x91\xc3", "Wrong type"),
    (b"\x91\xc4\x01\x06", "Wrong type"),
    # A frame in JSON.
    (b'{"type":6}', "Trailing 1"),
    # Each element of a call absent, nil and of another kind. The first that is amiss counts.
    (b"\x91\x01", "Missing headers"),
    (b"\x96\x01\xc0\xa1i\xa1t\x90\x90", "Wrong headers"),
    (b"\x96\x01\x90\xa1i\xa1t\x90\x90", "Wrong headers"),
    (b"\x96\x01\x81\xa1a\xc0\xa1i\xa1t\x90\x90", "Wrong headers"),
    (b"\x96\x01\x81\xa1a\xc4\x01b\xa1i\xa1t\x90\x90", "Wrong headers"),
    (b"\x96\x01\x82\xa1a\xa1b\xa1c\x01\xa1i\xa1t\x90\x90", "Wrong headers"),
    (b"\x92\x01\x80", "Missing invocationId"),
    (b"\x96\x01\x80\x07\xa1t\x90\x90", "Wrong invocationId"),
    (b"\x96\x01\x80\xc4\x01i\xa1t\x90\x90", "Wrong invocationId"),
    (b"\x93\x01\x80\xa1i", "Missing target"),
    (b"\x96\x01\x80\xa1i\xc0\x90\x90", "Wrong target"),
    (b"\x96\x01\x80\xa1i\x01\x90\x90", "Wrong target"),
    (b"\x94\x01\x80\xc0\xa1t", "Missing arguments"),
    (b"\x96\x01\x80\xa1i\xa1t\xc0\x90", "Wrong arguments"),
    (b"\x96\x01\x80\xa1i\xa1t\x80\x90", "Wrong arguments"),
    (b"\x96\x01\x80\xa1i\xa1t\x90\xc0", "Wrong streamIds"),
    (b"\x96\x01\x80\xa1i\xa1t\x90\xa11", "Wrong streamIds"),
    (b"\x96\x01\x80\xa1i\xa1t\x90\x92\xa11\x02", "Wrong streamIds"),
    (b"\x96\x01\x80\xa1i\xa1t\x90\x92\xa11\xc0", "Wrong streamIds"),
    (b"\x96\x01\x01\x01\x01\x01\x01", "Wrong headers"),
    (b"\x96\x01\x80\x01\x01\x01\x01", "Wrong invocationId"),
    (b"\x96\x01\x80\xc0\x01\x01\x01", "Wrong target"),
    (b"\x96\x01\x80\xc0\xa1t\x01\x01", "Wrong arguments"),
    (b"\x92\x01\xc0", "Wrong headers"),
    (b"\x91\x04", "Missing headers"),
    (b"\x96\x04\xc0\xa1i\xa1t\x90\x90", "Wrong headers"),
    (b"\x92\x04\x80", "Missing invocationId"),
    (b"\x96\x04\x80\xc0\xa1t\x90\x90", "Wrong invocationId"),
    (b"\x96\x04\x80\x90\xa1t\x90\x90", "Wrong invocationId"),
    (b"\x93\x04\x80\xa1i", "Missing target"),
    (b"\x94\x04\x80\xa1i\xc0", "Wrong target"),
    (b"\x94\x04\x80\xa1i\xa1t", "Missing arguments"),
    (b"\x95\x04\x80\xa1i\xa1t\xc0", "Wrong arguments"),
    (b"\x96\x04\x80\xa1i\xa1t\x90\xc0", "Wrong streamIds"),
    (b"\x96\x04\x80\xa1i\xa1t\x90\x91\x01", "Wrong streamIds"),
    # The same of items, completions and cancellations.
    (b"\x91\x02", "Missing headers"),
    (b"\x94\x02\xc0\xa1i\x01", "Wrong headers"),
    (b"\x92\x02\x80", "Missing invocationId"),
    (b"\x94\x02\x80\xc0\x01", "Wrong invocationId"),
    (b"\x94\x02\x80\x07\x01", "Wrong invocationId"),
    (b"\x93\x02\x80\xa1i", "Missing item"),
    (b"\x91\x03", "Missing headers"),
    (b"\x94\x03\xc0\xa1i\x02", "Wrong headers"),
    (b"\x92\x03\x80", "Missing invocationId"),
    (b"\x94\x03\x80\xc0\x02", "Wrong invocationId"),
    (b"\x94\x03\x80\x01\x02", "Wrong invocationId"),
    (b"\x93\x03\x80\xa1i", "Missing result"),
    (b"\x94\x03\x80\xa1i\xc0", "Wrong result"),
    (b"\x95\x03\x80\xa1i\xa11\xa1e", "Wrong result"),
    (b"\x94\x03\x80\xa1i\xc3", "Wrong result"),
    (b"\x94\x03\x80\xa1i\x00", "ResultKind 0"),
    (b"\x95\x03\x80\xa1i\x04\x01", "ResultKind 4"),
    (b"\x94\x03\x80\xa1i\xff", "ResultKind -1"),
    (b"\x94\x03\x80\xa1i\xcf\xff\xff\xff\xff\xff\xff\xff\xff", "ResultKind 18446744073709551615"),
    (b"\x94\x03\x80\xa1i\x01", "Missing error"),
    (b"\x95\x03\x80\xa1i\x01\xc0", "Wrong error"),
    (b"\x95\x03\x80\xa1i\x01\x07", "Wrong error"),
    (b"\x94\x03\x80\xa1i\x03", "Missing result"),
    (b"\x94\x03\x80\xc0\x04", "Wrong invocationId"),
    (b"\x91\x05", "Missing headers"),
    (b"\x93\x05\xc0\xc0", "Wrong headers"),
    (b"\x92\x05\x80", "Missing invocationId"),
    (b"\x93\x05\x80\xc0", "Wrong invocationId"),
    (b"\x93\x05\x80\x80", "Wrong invocationId"),
    # The same of what no invocation has.
    (b"\x91\x07", "Missing error"),
    (b"\x92\x07\x01", "Wrong error"),
    (b"\x93\x07\x01\x01", "Wrong error"),
    (b"\x93\x07\xc0\xc0", "Wrong allowReconnect"),
    (b"\x93\x07\xa1e\x01", "Wrong allowReconnect"),
    (b"\x91\x08", "Missing sequenceId"),
    (b"\x92\x08\xc0", "Wrong sequenceId"),
    (b"\x92\x08\xa11", "Wrong sequenceId"),
    (b"\x92\x08\xff", "Wrong sequenceId"),
    (b"\x91\x09", "Missing sequenceId"),
    (b"\x93\x09\xc0\x01", "Wrong sequenceId"),
    (b"\x92\x09\xff", "Wrong sequenceId"),
]
UNKNOWN_IN_PACK = [
    (b"\x91\x00", 0),
    (b"\x92\x0a\xc0", 10),
    (b"\x91\xff", -1),
    (b"\x94*\x01\x02\x03", 42),
    (b"\x91\xcf\xff\xff\xff\xff\xff\xff\xff\xff", 18446744073709551615),
    (b"\x91\xd3\x80\x00\x00\x00\x00\x00\x00\x00", -9223372036854775808),
    (b"\xdc\x00\x01\xcd\x01\x01", 257),
]


def depths_in_pack():
    """A frame of 64 levels is read and written, and one of 65 isn't read."""
    kinds = [
        (b"\x96\x01\x80\xc0\xa1t", b"\x90", '{"arguments":%s,"target":"t","type":1}', 69),
        (b"\x94\x02\x80\xa1i", b"", '{"invocationId":"i","item":%s,"type":2}', 68),
        (b"\x95\x03\x80\xa1i\x03", b"", '{"invocationId":"i","result":%s,"type":3}', 69),
    ]
    nested = "[" * 63 + "]" * 63
    deep = [(start + b"\x91" * 62 + b"\x90" + end, text % nested) for start, end, text, _ in kinds]
    deeper = [("pack", start + b"\x91" * 63 + b"\x90" + end, f"refused TooDeep {place}") for start, end, _, place in kinds]
    return deep, deeper


def messages_in_pack():
    deep, deeper = depths_in_pack()
    read = [(frame, text) for frame, text, _ in READ_IN_PACK] + READ_WITH_BYTES + deep
    yield "messages in MessagePack", [("pack", frame, "message " + text) for frame, text in read]
    yield "messages in MessagePack that are refused", [("pack", frame, "refused " + why) for frame, why in REFUSED_IN_PACK] + deeper
    yield "unknown types in MessagePack", [("pack", frame, f"unknown {number}") for frame, number in UNKNOWN_IN_PACK]


def messages_are_packed():
    yield "messages are packed", [(spelled, frame) for spelled, _, frame in EXAMPLES]
    yield "messages are packed as ours are", [(text, shortest or frame) for frame, text, shortest in READ_IN_PACK]
    yield "deep messages are packed", [(text, frame) for frame, text in depths_in_pack()[0]]


# ---- frames at the limit, and what is no frame


def frames_at_the_limit():
    """A frame of each codec with as many bytes as it may have, most of them a text. In JSON a byte of the text may take six."""
    text = "a" * (MOST - len('{"type":7,"error":""}'))
    letters = MOST - len(b"\x92\x07\xda??")
    head = b"\x92\x07\xda" + letters.to_bytes(2, "big")
    yield "frames at the limit", [
        ("json", b'{"type":7,"error":"%s"}' % text.encode(), 'message {"error":"%s","type":7}' % text),
        ("pack", head + b"a" * letters, 'message {"error":"%s","type":7}' % ("a" * letters)),
        ("pack", head + b"\x01" * letters, 'message {"error":"%s","type":7}' % (r"\u0001" * letters)),
        ("pack", b"\xdc" + (MOST - 3).to_bytes(2, "big") + b"\x06" * (MOST - 3), 'message {"type":6}'),
    ]


# Streams that begin with pings, what is told of those, and of what is behind them: too much without a separator, frames of the other codec, lengths that
# are too great or none, and a rest. Lengths that aren't the shortest are read.
BROKEN = [
    ("json", b'{"type":6}\x1e' + b" " * (MOST + 1), ['0 message {"type":6}', "11 refused TooLong"]),
    ("json", b'{"type":6}\x1e' + b" " * MOST, ['0 message {"type":6}', f"11 unfinished {MOST}"]),
    ("json", b'{"type":6' + b" " * (MOST - 9) + b"}\x1e", ["0 refused TooLong"]),
    ("json", b"\x1e", ["0 refused NotJson"]),
    ("json", b"\x91\x06\x1e", ["0 refused NotJson"]),
    ("json", b'{"type":6}\x1e\x02\x91\x06', ['0 message {"type":6}', "11 unfinished 3"]),
    ("pack", b"\x02\x91\x06\x81\x80\x02", ['0 message {"type":6}', "3 refused TooLong"]),
    ("pack", b"\x02\x91\x06\xff\xff\xff\xff\x7f", ['0 message {"type":6}', "3 refused TooLong"]),
    ("pack", b"\x02\x91\x06\xff\xff\xff\xff\xff", ['0 message {"type":6}', "3 refused BadLength"]),
    ("pack", b"\x02\x91\x06\x80\x80\x80\x80\x80\x00", ['0 message {"type":6}', "3 refused BadLength"]),
    ("pack", b"\x02\x91\x06\xff\xff\xff\xff", ['0 message {"type":6}', "3 unfinished 4"]),
    ("pack", b"\x02\x91\x06\x80\x80\x02" + bytes(MOST - 1), ['0 message {"type":6}', f"3 unfinished {MOST + 2}"]),
    ("pack", b"\x82\x80\x80\x80\x00\x91\x06\x80\x00", ['0 message {"type":6}', "7 refused Short 0"]),
    ("pack", b"\x82\x00\x91\x06\x02\x91", ['0 message {"type":6}', "4 unfinished 2"]),
]

FRAMES = dict([*examples(), *messages_in_json(), *depths_in_json(), *messages_in_pack(), *frames_at_the_limit()])
PACKED = dict(messages_are_packed())
