#!/usr/bin/env python3
"""Makes the image of a device and a question that its manager signed, with hashlib alone (RFC 8554, RFC 9052).

It shares no line with the proved programs. `device.py DIR` writes into DIR `agent.img`, the image of a new device,
`question`, a frame for its agent, `reply`, the frame by which the agent answers it at leaf 0, and `public`, the
public key of the device. Keys are of one level, height 5, width 8, from seeds of 32 bytes: 11 the manager, 22 the
author of manifests, 33 the device.
"""
import os
import sys

sys.dont_write_bytecode = True
from hss import Tree, hashed, u

PROTECTED = bytes.fromhex("a101382d")
QUESTION = bytes.fromhex("8501a11448010203040506070881818212382d81822f382d02")
RESPONSE = bytes.fromhex("8202a2060014480102030405060708")
QUOTA = 16384


def head(major, n):
    for size, information in ((1, 24), (2, 25), (4, 26)):
        if n < 24:
            return bytes([32 * major + n])
        if n < 256**size:
            return bytes([32 * major + information]) + u(n, size)
    raise ValueError(n)


def string(value):
    return head(2, len(value)) + value


def array(*members):
    return head(4, len(members)) + b"".join(members)


def tree(byte):
    seed = bytes([byte]) * 32
    return Tree(5, 8, hashed(b"\x49" + seed)[:16], hashed(b"\x53" + seed))


def anchor(key):
    """A COSE_Key {1: 5, 3: -46, -1: public}, wrapped."""
    return string(bytes.fromhex("a3010503382d20") + string(u(1, 4) + key.public()))


def image(manager, author, params=(1, 5, 8)):
    """The head with the configuration, whose key has these levels, height and width, and a journal of zeros."""
    numbers = [head(0, n) for n in (QUOTA, *params)]
    anchors = array(array(anchor(manager)), array(anchor(author)))
    config = array(string(b"\xaa"), string(b"\xbb"), string(b"\x64"), *numbers, string(b"\x33" * 32), anchors)
    top = b"TEEPIMG1" + u(1, 4) + u(len(config), 4) + config
    return top.ljust(65536, b"\0") + bytes(16 + 2 * (2 * QUOTA + 65536))


def signed_text(payload):
    """What a signature is of (RFC 9052, section 4.4)."""
    return array(head(3, 10) + b"Signature1", string(PROTECTED), string(b""), string(payload))


def signed(key, leaf, unprotected, payload):
    """A tagged COSE_Sign1 (RFC 9052, section 4.2), signed at a leaf."""
    signature = u(0, 4) + key.sign(leaf, signed_text(payload))
    return head(6, 18) + array(string(PROTECTED), unprotected, string(payload), string(signature))


def frame(kind, message):
    return bytes([kind]) + u(len(message), 4) + message


def question(manager, payload=QUESTION):
    """A frame for an agent, signed by the manager at leaf 0."""
    return frame(1, signed(manager, 0, head(5, 0), payload))


def reply(device, leaf, payload=RESPONSE):
    """A frame of an agent, with the number of the device as the key identifier, label 4."""
    return frame(0x81, signed(device, leaf, head(5, 1) + head(0, 4) + string(b"\x64"), payload))


def main():
    where = sys.argv[1]
    manager, author, device = tree(0x11), tree(0x22), tree(0x33)
    made = {"agent.img": image(manager, author), "question": question(manager), "reply": reply(device, 0), "public": u(1, 4) + device.public()}
    for name, made in made.items():
        with open(os.path.join(where, name), "wb") as out:
            out.write(made)


if __name__ == "__main__":
    main()
