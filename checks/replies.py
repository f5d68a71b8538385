#!/usr/bin/env python3
"""Judges what an agent sent, and the image that it left, with hashlib alone (RFC 8554, RFC 9052).

`replies.py PUBLIC IMAGE < FRAMES` wants each message signed by the device's key, each at the leaf behind the one
before, and as many leaves used in the image as the last one says; it prints a line a frame and one for the image.
Without words it makes a device, has the agent answer 34 questions over two starts and judges that: 32 signed
replies, and then refusal 6, also of the second start. Without the program, which `rt ci` leaves, it ends with 0.
"""
import os
import subprocess
import sys
import tempfile

sys.dont_write_bytecode = True
import device
import hss

AGENT = os.path.join(hss.TOP, "crates/teep_agent/out/teep_agent")
KIND = (1, 5, 8)
REGION = 65536


def frames(text):
    """The kinds and bodies."""
    while text:
        size = int.from_bytes(text[1:5], "big")
        if len(text) < 5 + size:
            raise hss.Refused("a frame is cut")
        yield text[0], text[5 : 5 + size]
        text = text[5 + size :]


def string_at(text, at):
    """The byte string that begins there, and where it ends."""
    size, more = text[at] - 0x40, 1
    if size in (24, 25):
        more = size - 22
        size = int.from_bytes(text[at + 1 : at + more], "big")
    return text[at + more : at + more + size], at + more + size


def judged(public, message):
    """The payload and the leaf of a message by which a device with the number h'64' replies."""
    front = device.head(6, 18) + device.head(4, 4) + device.string(device.PROTECTED) + device.head(5, 1) + bytes.fromhex("044164")
    hss.need(message.startswith(front), "another head")
    payload, at = string_at(message, len(front))
    signature, end = string_at(message, at)
    hss.need(end == len(message), "bytes behind it")
    return payload, hss.leaf_signed(*KIND, public, device.signed_text(payload), signature)


def leaves_used(image):
    """The leaf of the last body of the journal (layout 1, a body of version 1 or 2)."""
    at = REGION + 16 + (image[REGION] & 1) * (2 * device.QUOTA + 65536)
    leaf = 0
    while image[at] == 0xA5:
        size = int.from_bytes(image[at + 1 : at + 5], "big")
        body = image[at + 5 : at + 5 + size]
        leaf = body[2] if body[2] < 24 else body[3]
        at += 5 + size
    return leaf


def told(public, image, sent):
    """A line a frame, and one for the image."""
    leaf = 0
    for kind, body in frames(sent):
        if kind == 0x81:
            payload, at = judged(public, body)
            hss.need(at == leaf, f"signed at leaf {at}, not {leaf}")
            leaf += 1
            yield f"message, signed at leaf {at}: {payload.hex()}"
        else:
            hss.need(kind == 0x82 and len(body) == 1, "another frame")
            yield f"refusal {body[0]}"
    used = leaves_used(image)
    hss.need(used >= leaf, f"{used} leaves are used, and {leaf} messages are signed")
    yield f"image: {used} leaves used"


def read(where, name):
    with open(os.path.join(where, name), "rb") as text:
        return text.read()


def answered(where, questions):
    """What an agent sends when it is asked so often."""
    done = subprocess.run([AGENT, "run"], input=read(where, "question") * questions, capture_output=True, cwd=where, check=True)
    return done.stdout


def lives():
    """An agent that is started twice, and whose key has 32 leaves."""
    with tempfile.TemporaryDirectory() as where:
        subprocess.run([sys.executable, os.path.join(hss.TOP, "checks/device.py"), where], check=True)
        first = answered(where, 33)
        second = answered(where, 1)
        lines = list(told(read(where, "public"), read(where, "agent.img"), first))
        hss.need(first.startswith(read(where, "reply")), "another first reply")
        hss.need(lines[31].startswith("message") and lines[32:] == ["refusal 6", "image: 32 leaves used"], "another end")
        hss.need(second == bytes.fromhex("820000000106"), "another reply of the second start")
    print("replies: 32 signed, each at its leaf; then refusal 6, also behind a restart")


def main():
    if len(sys.argv) == 3:
        with open(sys.argv[1], "rb") as public, open(sys.argv[2], "rb") as image:
            for line in told(public.read(), image.read(), sys.stdin.buffer.read()):
                print(line)
    elif os.path.exists(AGENT):
        lives()
    else:
        print("replies: there is no proved program, so nothing was judged")


if __name__ == "__main__":
    try:
        main()
    except hss.Refused as cause:
        sys.exit(f"replies: {cause}")
