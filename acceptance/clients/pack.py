"""As much of MessagePack as the session needs, by its specification, and the lengths before a hub's frames."""


def packed(value):
    """A value in its shortest spelling. Texts, lists and maps are short here, and numbers below 128."""
    if value is None:
        return b"\xc0"
    if isinstance(value, int) and 0 <= value < 128:
        return bytes([value])
    if isinstance(value, str) and len(value.encode()) < 32:
        return bytes([0xA0 + len(value.encode())]) + value.encode()
    if isinstance(value, list) and len(value) < 16:
        return bytes([0x90 + len(value)]) + b"".join(map(packed, value))
    if isinstance(value, dict) and len(value) < 16:
        return bytes([0x80 + len(value)]) + b"".join(packed(part) for pair in value.items() for part in pair)
    raise ValueError(value)


def unpacked(data, at=0):
    """The value that begins at a place, and the place after it."""
    mark = data[at]
    at += 1
    if mark < 0x80:
        return mark, at
    if mark < 0x90:
        flat, at = several(data, at, 2 * (mark - 0x80))
        return dict(zip(flat[::2], flat[1::2])), at
    if mark < 0xA0:
        return several(data, at, mark - 0x90)
    if mark < 0xC0:
        return data[at : at + mark - 0xA0].decode(), at + mark - 0xA0
    if mark == 0xC0:
        return None, at
    raise ValueError(f"the mark {mark:02x}")


def several(data, at, count):
    values = []
    for _ in range(count):
        value, at = unpacked(data, at)
        values.append(value)
    return values, at


def framed(body):
    """A frame after its length: 7 bits a byte, the lowest first, and the top bit for 'more'."""
    size, length = len(body), []
    while size > 127:
        length.append(size % 128 + 128)
        size //= 128
    return bytes([*length, size]) + body


def frames(data):
    """The frames of a message that has whole ones."""
    while data:
        size = shift = 0
        while data[0] > 127:
            size, shift, data = size + (data[0] - 128 << shift), shift + 7, data[1:]
        size, data = size + (data[0] << shift), data[1:]
        yield data[:size]
        data = data[size:]
