"""The toy key device (formulas over SHA-256, of seed 1), and certificates that it signs, for the scripts that issue."""

from hashlib import sha256

SEED, HOLDER, ISSUER, READER = 1, 1, 2, 3


def in_eight(number):
    return number.to_bytes(8, "big")


def point(owner, key, seed=SEED):
    return b"".join(
        sha256(name + in_eight(seed) + in_eight(owner) + in_eight(key)).digest()
        for name in (b"mdoc-toy-x", b"mdoc-toy-y")
    )


def secret(own, peer):
    return sha256(b"mdoc-toy-agree" + in_eight(SEED) + min(own, peer) + max(own, peer)).digest()


def signature(public, message, seed=SEED):
    return b"".join(
        sha256(name + in_eight(seed) + public + message).digest()
        for name in (b"mdoc-toy-r", b"mdoc-toy-s")
    )


# ---- certificates (RFC 5280; X.690)


def der(tag, *parts):
    body = b"".join(parts)
    size = len(body)
    if size >= 0x80:
        digits = size.to_bytes((size.bit_length() + 7) // 8, "big")
        return bytes([tag, 0x80 + len(digits)]) + digits + body
    return bytes([tag, size]) + body


def integer(digits):
    body = digits.lstrip(b"\0")
    return der(0x02, (b"\0" if not body or body[0] >= 0x80 else b"") + body)


def name(text):
    return der(0x30, der(0x31, der(0x30, bytes.fromhex("0603550403"), der(0x0C, text.encode()))))


def time(text):
    digits = text.translate({ord(sign): None for sign in "-T:"})
    return der(0x17, digits[2:].encode()) if int(text[:4]) < 2050 else der(0x18, digits.encode())


def signed_certificate(serial, issuer, subject, since, until, public, sign, signer):
    """One with that key, signed by a function of its message; of a document signer, where it is none of a root."""
    algorithm = bytes.fromhex("300a06082a8648ce3d040302")
    kind = bytes.fromhex("301306072a8648ce3d020106082a8648ce3d030107")
    usage = der(0x30, bytes.fromhex("0603551d25"), der(0x04, der(0x30, bytes.fromhex("060728818c5d050102"))))
    message = der(
        0x30,
        bytes.fromhex("a003020102"),
        integer(bytes([serial])),
        algorithm,
        name(issuer),
        der(0x30, time(since), time(until)),
        name(subject),
        der(0x30, kind, der(0x03, b"\0\4", public)),
        der(0xA3, der(0x30, usage)) if signer else b"",
    )
    pair = sign(message)
    return der(0x30, message, algorithm, der(0x03, b"\0", der(0x30, integer(pair[:32]), integer(pair[32:]))))


def certificate(serial, issuer, subject, key, issuer_key, since, until, signer):
    """One of the issuer's device, by numbers of its keys."""
    return signed_certificate(
        serial, issuer, subject, since, until, point(ISSUER, key),
        lambda message: signature(point(ISSUER, issuer_key), message), signer)
