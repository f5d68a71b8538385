#!/usr/bin/env python3
"""Weighs what the proved agent holds of frames that nobody signed: no more than their own bytes and 1 MiB.

Each frame is one that costs a reader that builds items, or copies what it verifies, the most. The most that the
process held is read when its answer is there. Run it after `rt ci`, which leaves the program `teep_agent`. Without
the program, or without /proc, it says so and ends with 0. `--print` says the figure of each frame.
"""
import os
import subprocess
import sys
import tempfile

TOP = os.path.dirname(os.path.dirname(os.path.abspath(__file__)))
AGENT = os.path.join(TOP, "crates/teep_agent/out/teep_agent")
LIMIT = 2**24
SPARE = 1024


def cbor(major, n):
    if n < 24:
        return bytes([32 * major + n])
    for info, size in ((24, 1), (25, 2), (26, 4), (27, 8)):
        if n < 256**size:
            return bytes([32 * major + info]) + n.to_bytes(size, "big")


def string(content):
    return cbor(2, len(content)) + content


def envelope(protected, headers, payload):
    """A COSE_Sign1 with the algorithm HSS-LMS, and a signature that is none."""
    return b"\xd2\x84" + string(protected) + headers + string(payload) + string(b"none")


def frames():
    """Bodies of frames of kind 1, each with its name and the number of its refusal."""
    small = LIMIT - 5
    keys = b"".join(cbor(0, n) + b"\x00" for n in range(2**20 - 1))
    plain, mib = b"\xa1\x01\x38\x2d", 2**20
    return (
        ("an array of small items", cbor(4, small) + bytes(small), 2),
        ("the same, 15 arrays deep", b"\x81" * 14 + cbor(4, small - 14) + bytes(small - 14), 2),
        ("a map of 2^20 keys, the last out of order", cbor(5, 2**20) + keys + b"\x00\x00", 2),
        ("a payload of 15 MiB, not signed", envelope(plain, b"\xa0", bytes(15 * mib)), 3),
        ("protected headers of 15 MiB, not signed", envelope(b"\xa2\x01\x38\x2d\x03" + string(bytes(15 * mib)), b"\xa0", b""), 3),
        ("2^20 - 1 unprotected headers, not signed", envelope(plain, cbor(5, 2**20 - 1) + keys, b""), 3),
    )


def held(kind, body, where):
    """The most memory that the agent held up to its answer, in KiB, and the answer."""
    child = subprocess.Popen([AGENT, "run"], stdin=subprocess.PIPE, stdout=subprocess.PIPE, cwd=where)
    child.stdin.write(bytes([kind]) + len(body).to_bytes(4, "big") + body)
    child.stdin.flush()
    answer = child.stdout.read(6)
    with open(f"/proc/{child.pid}/status") as status:
        most = next(int(line.split()[1]) for line in status if line.startswith("VmHWM"))
    child.stdin.close()
    child.wait()
    return most, answer


def main():
    if not os.path.exists(AGENT) or not os.path.exists("/proc/self/status"):
        print("memory: rt ci has left no teep_agent, or there is no /proc: skipped")
        return 0
    faults = 0
    with tempfile.TemporaryDirectory() as where:
        subprocess.run([sys.executable, os.path.join(TOP, "checks/device.py"), where], check=True)
        base = held(3, b"", where)[0]
        for name, body, refusal in frames():
            most, answer = held(1, body, where)
            beside = most - base - len(body) / 1024
            good = beside <= SPARE and answer == b"\x82\x00\x00\x00\x01" + bytes([refusal])
            faults += not good
            if "--print" in sys.argv or not good:
                print(f"{name}, {len(body)} bytes: {beside / 1024:.2f} MiB beside the frame, answered {answer.hex()}")
    print(f"memory: {len(frames())} frames that nobody signed, {faults} faults")
    return 1 if faults else 0


if __name__ == "__main__":
    sys.exit(main())
