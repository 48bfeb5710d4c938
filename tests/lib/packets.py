"""The packets of an access server, whose octets Python's hashlib and hmac make. It needs no program of the repository."""

import hashlib
import hmac
import struct
from collections.abc import Iterator

START, STOP, INTERIM = 1, 2, 3
MESSAGE_AUTHENTICATOR = 80
# the request of RFC 2865 section 7.1, whose User-Name is nemo, and its secret and password
REQUEST = bytes.fromhex(
    "010000380f403f9473978057bd83d5cb98f4227a01066e656d6f02120dbe708d93d413ce3196e43f782a0aee0406c0a80110050600000003"
)
SECRET, PASSWORD = b"xyzzy5461", b"arctangent"


def attribute(kind: int, value: bytes) -> bytes:
    """An attribute."""
    return bytes([kind, 2 + len(value)]) + value


def hidden(password: bytes, secret: bytes, authenticator: bytes) -> bytes:
    """A password as RFC 2865 section 5.2 hides it."""
    padded = password + bytes(-len(password) % 16 if password else 16)
    found, last = b"", authenticator
    for at in range(0, len(padded), 16):
        digest = hashlib.md5(secret + last).digest()
        last = bytes(one ^ other for one, other in zip(padded[at : at + 16], digest))
        found += last
    return found


def access_request(
    number: int, secret: bytes, attributes: bytes, authenticator: bytes, password: bytes | None = None, signs: bool = False,
) -> bytes:
    """An Access-Request, with PAP where there is a password."""
    if password is not None:
        attributes = attributes + attribute(2, hidden(password, secret, authenticator))
    if signs:
        attributes = attribute(MESSAGE_AUTHENTICATOR, bytes(16)) + attributes
    octets = struct.pack(">BBH", 1, number, 20 + len(attributes)) + authenticator + attributes
    if signs:
        octets = octets[:22] + hmac.new(secret, octets, "md5").digest() + octets[38:]
    return octets


def accounting_request(number: int, secret: bytes, status: int, attributes: bytes) -> bytes:
    """An Accounting-Request with a right Request Authenticator."""
    attributes = attribute(40, struct.pack(">I", status)) + attributes
    head = struct.pack(">BBH", 4, number, 20 + len(attributes))
    return head + hashlib.md5(head + bytes(16) + attributes + secret).digest() + attributes


def is_answer(reply: bytes, request: bytes, secret: bytes) -> bool:
    """Whether a reply is to the request, by its Identifier, its Length and its Response Authenticator."""
    if len(reply) < 20 or reply[1] != request[1] or len(reply) != struct.unpack(">H", reply[2:4])[0]:
        return False
    return reply[4:20] == hashlib.md5(reply[:4] + request[4:20] + reply[20:] + secret).digest()


def attributes_of(packet: bytes) -> Iterator[tuple[int, bytes]]:
    """The attributes of a packet with a well-formed list, as pairs."""
    at = 20
    while at < len(packet):
        yield packet[at], packet[at + 2 : at + packet[at + 1]]
        at += packet[at + 1]
