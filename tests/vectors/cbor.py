"""CBOR (RFC 8949) in its shortest form, for the scripts that make stores. An item is its bytes."""


def head(major, number):
    if number < 24:
        return bytes([major << 5 | number])
    for size, code in ((1, 24), (2, 25), (4, 26), (8, 27)):
        if number < 1 << 8 * size:
            return bytes([major << 5 | code]) + number.to_bytes(size, "big")
    raise ValueError(number)


def uint(number):
    return head(0, number)


def blob(value):
    return head(2, len(value)) + value


def text(value):
    return head(3, len(value.encode())) + value.encode()


def array(items):
    return head(4, len(items)) + b"".join(items)


def table(entries):
    return head(5, len(entries)) + b"".join(key + value for key, value in entries)


def tag(number, item):
    return head(6, number) + item


def embedded(item):
    return tag(24, blob(item))


def boolean(value):
    return b"\xf5" if value else b"\xf4"


def decoded(data, at=0):
    """The value of an item, and the place behind it; an item under a tag is its value."""
    major, info = data[at] >> 5, data[at] & 31
    at += 1
    number = info
    if info >= 24:
        size = 1 << info - 24
        number, at = int.from_bytes(data[at:at + size], "big"), at + size
    if major in (0, 1):
        return (number, -1 - number)[major], at
    if major in (2, 3):
        value = data[at:at + number]
        return (value if major == 2 else value.decode()), at + number
    if major == 6:
        return decoded(data, at)
    if major == 7:
        return {20: False, 21: True}.get(info), at
    values = []
    for _ in range(number * (major - 3)):
        value, at = decoded(data, at)
        values.append(value)
    return (values if major == 4 else dict(zip(values[::2], values[1::2]))), at
