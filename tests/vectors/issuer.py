"""An issuer with toy key devices (ISO/IEC 18013-5, 9.1.2), by Python's hashlib alone, for the scripts that issue."""

from dataclasses import dataclass
from hashlib import sha256

import cbor
import toy


@dataclass
class ToyDevice:
    seed: int
    owner: int

    def point(self, key):
        return toy.point(self.owner, key, self.seed)

    def signature(self, key, message):
        return toy.signature(self.point(key), message, self.seed)


@dataclass
class Spec:
    """What is issued: texts, 0 for a signature of the device or 1 for a MAC, and each element with its CBOR."""

    doc_type: str
    auth: int
    signed: str
    begins: str
    until: str
    update: str | None
    elements: list[tuple[str, str, bytes]]


# ---- certificates (RFC 5280)


def certificate(spec, device, serial, subject, key, issuer_key, signer):
    return toy.signed_certificate(
        serial, "issuer", subject, spec.begins, spec.until, device.point(key),
        lambda message: device.signature(issuer_key, message), signer)


def new_signer(spec, device, root_key):
    """The certificates of a root and of a signer, whose key is the next one."""
    root = certificate(spec, device, 1, "issuer", root_key, root_key, False)
    return root, certificate(spec, device, 2, "signer", root_key + 1, root_key, True)


# ---- a copy (ISO/IEC 18013-5, 9.1.2)


def grouped(entries):
    """Entries by their namespaces, in the order in which these appear first."""
    spaces = {}
    for space, entry in entries:
        spaces.setdefault(space, []).append(entry)
    return spaces.items()


def date(text):
    return cbor.tag(0, cbor.text(text))


def fields(*entries):
    return cbor.table([(cbor.text(key), value) for key, value in entries])


def signed_items(spec, holder, key, salts, issuer, signer_key, chain):
    """The items for the holder's key, each with its namespace and a salt, and what a key of the issuer's device signs of them."""
    items, numbers = [], {}
    for (space, element, value), salt in zip(spec.elements, salts, strict=True):
        number = numbers.get(space, 0)
        numbers[space] = number + 1
        raw = cbor.embedded(fields(
            ("digestID", cbor.uint(number)), ("random", cbor.blob(salt)),
            ("elementIdentifier", cbor.text(element)), ("elementValue", value)))
        items.append((space, number, raw))
    public = holder.point(key)
    device_key = cbor.table([
        (cbor.uint(1), cbor.uint(2)), (b"\x20", cbor.uint(1)),
        (b"\x21", cbor.blob(public[:32])), (b"\x22", cbor.blob(public[32:]))])
    digests = cbor.table([
        (cbor.text(space), cbor.table([(cbor.uint(n), cbor.blob(sha256(raw).digest())) for n, raw in entries]))
        for space, entries in grouped((space, (n, raw)) for space, n, raw in items)])
    moments = [("signed", spec.signed), ("validFrom", spec.begins), ("validUntil", spec.until), ("expectedUpdate", spec.update)]
    payload = cbor.embedded(fields(
        ("version", cbor.text("1.0")), ("digestAlgorithm", cbor.text("SHA-256")), ("valueDigests", digests),
        ("deviceKeyInfo", fields(("deviceKey", device_key))), ("docType", cbor.text(spec.doc_type)),
        ("validityInfo", fields(*((key, date(moment)) for key, moment in moments if moment is not None)))))
    protected = bytes.fromhex("a10126")
    message = cbor.array([cbor.text("Signature1"), cbor.blob(protected), cbor.blob(b""), cbor.blob(payload)])
    auth = cbor.array([
        cbor.blob(protected), cbor.table([(cbor.uint(33), cbor.blob(chain))]), cbor.blob(payload),
        cbor.blob(issuer.signature(signer_key, message))])
    return [(space, raw) for space, _, raw in items], auth


def stored_copy(key, items, auth):
    """A copy as it is stored: items with their namespaces, and the issuer's signature."""
    spaces = cbor.table([(cbor.text(space), cbor.array(raws)) for space, raws in grouped(items)])
    return fields(("key", cbor.uint(key)), ("used", cbor.boolean(False)), ("issuerAuth", auth), ("nameSpaces", spaces))


def copy(spec, holder, key, salts, issuer, signer_key, chain):
    """A copy by the holder's key and a salt for each element, signed by a key of the issuer's device."""
    return stored_copy(key, *signed_items(spec, holder, key, salts, issuer, signer_key, chain))


def package(spec, copies):
    """A store of one document with these copies."""
    document = fields(("docType", cbor.text(spec.doc_type)), ("auth", cbor.uint(spec.auth)), ("copies", cbor.array(copies)))
    return fields(("version", cbor.uint(1)), ("documents", cbor.array([document])))
