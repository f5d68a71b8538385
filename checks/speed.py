#!/usr/bin/env python3
"""Times the proved programs on large inputs, by hand: best of five runs each. It judges nothing.

Run it after `rt ci`, on a quiet machine.
"""
import os
import subprocess
import sys
import tempfile
import time

import hss

AGENT = os.path.join(hss.TOP, "crates/teep_agent/out/teep_agent")


def seconds(words, given, where=None):
    best = None
    for _ in range(5):
        start = time.perf_counter()
        done = subprocess.run(words, input=given, capture_output=True, cwd=where)
        spent = time.perf_counter() - start
        if done.returncode != 0:
            raise SystemExit(f"{words}: status {done.returncode}")
        best = spent if best is None else min(best, spent)
    return best


def per_round(work, given, rounds):
    """Seconds of one round: what many take more than one."""
    many = seconds([hss.PROGRAM, work, str(rounds + 1)], given)
    return (many - seconds([hss.PROGRAM, work, "1"], given)) / rounds


def cbor(major, n):
    if n < 24:
        return bytes([32 * major + n])
    for info, size in ((24, 1), (25, 2), (26, 4), (27, 8)):
        if n < 256**size:
            return bytes([32 * major + info]) + n.to_bytes(size, "big")


def block_cost():
    """Seconds of one block of a long hash."""
    return per_round("hash", bytes(64 * 1000000 - 9), 3) / 1e6


def rates(block):
    mib = 2**20
    small = bytes.fromhex("a2 01 44 01020304 02 07")
    maps = cbor(4, mib // len(small)) + small * (mib // len(small))
    big = b"\xa1\x01" + cbor(2, mib) + bytes(mib)
    for name, item in (("1 MiB of maps {1: h'01020304', 2: 7}", maps), ("a map with one string of 1 MiB", big)):
        for work in ("decode", "encode"):
            print(f"{work} {name}: {len(item) / per_round(work, item, 40) / 1e6:.0f} MB/s")
    step = per_round("chain", b"", 400) / 255
    print(f"one block of a long hash {block * 1e9:.0f} ns, one chain step {step * 1e9:.0f} ns, {step / block:.2f} times")
    for levels, height, width, leaf in ((1, 5, 8, 0), (2, 10, 4, 33)):
        message = b"TEEP"
        public, signature = hss.signed(levels, height, width, leaf, message)
        given = hss.case(public, message, signature)
        blocks = blocks_verified(levels, height, width, public, message, signature)
        spent = per_round("verify", given, 300)
        print(f"levels {levels} height {height} width {width}: {1 / spent:.0f} verifications a second, {blocks} blocks, {spent / (blocks * block):.2f} times their cost")


def blocks_of(size):
    """The SHA-256 blocks of a hash of so many bytes."""
    return (size + 8) // 64 + 1


def steps_signed(width, identifier, q, randomizer, text):
    """The steps from the chains' starts to what is signed."""
    code, p, ls = hss.OTS[width]
    digest = hss.hashed(identifier, q, b"\x81\x81", randomizer, text)
    checksum = sum(2**width - 1 - d for d in hss.digits(digest, width, 256 // width)) << ls
    return sum(hss.digits(digest + hss.u(checksum, 2), width, p))


def blocks_verified(levels, height, width, public, message, signature):
    """The blocks of a verification."""
    p = hss.OTS[width][1]
    size = 12 + 32 * (p + 1 + height)
    key, at, count = public[4:], 4, 0
    for level in range(levels):
        part = signature[at : at + size]
        text = message if level == levels - 1 else signature[at + size : at + size + 56]
        count += p * (2**width - 1) - steps_signed(width, key[8:24], part[:4], part[8:40], text)
        count += blocks_of(54 + len(text)) + blocks_of(22 + 32 * p) + blocks_of(54) + height * blocks_of(86)
        key, at = text, at + size + 56
    return count


def blocks_signed(levels, width, leaves, message):
    """The blocks of a signature with kept trees, on average over the first leaves: those of its last level."""
    identifier, seed = hss.top_secret(hss.KEY_SEED)
    if levels == 2:
        identifier, seed = hss.lower_secret(identifier, seed, 0)
    steps = 0
    for q in range(leaves):
        randomizer = hss.hashed(identifier, hss.u(q, 4), b"\xff\xfd\xff", seed)
        steps += steps_signed(width, identifier, hss.u(q, 4), randomizer, message)
    return steps / leaves + blocks_of(55) + blocks_of(54 + len(message)) + hss.OTS[width][1] * blocks_of(55)


def blocks_grown(height, width):
    """The blocks of a tree: of each leaf its chains with their starts, its key and its node, and the inner nodes."""
    p = hss.OTS[width][1]
    leaf = p * (blocks_of(55) + (2**width - 1) * blocks_of(55)) + blocks_of(22 + 32 * p) + blocks_of(54)
    return 2**height * leaf + (2**height - 1) * blocks_of(86)


def grown(block):
    """The two trees of a key, by one worker and by four."""
    blocks = 2 * blocks_grown(10, 4)
    alone, by_four = per_round("grow", b"", 3), per_round("grow_by_four", b"", 3)
    print(f"a key of two levels, height 10, width 4: {alone:.2f} s, {blocks} blocks, {alone / (blocks * block):.2f} times their cost")
    print(f"the same by four workers: {by_four:.2f} s, {alone / by_four:.2f} times as fast")


def signatures(block):
    """Signatures at one leaf after another, and where each has another lower tree."""
    for work, levels, height, width in (("sign_one", 1, 5, 8), ("sign_two", 2, 10, 4)):
        blocks = blocks_signed(levels, width, 2**height, b"TEEP")
        spent = per_round(work, b"", 4096)
        print(f"levels {levels} height {height} width {width}: {1 / spent:.0f} signatures a second, {blocks:.0f} blocks, {spent / (blocks * block):.2f} times their cost")
    blocks = blocks_grown(10, 4) + blocks_signed(2, 4, 2, b"TEEP") * 2
    spent = per_round("sign_below", b"", 3)
    print(f"the same where the lower tree changes: {spent:.2f} s, {blocks:.0f} blocks, {spent / (blocks * block):.2f} times their cost")


def frames():
    """Signed questions, over the image of a device: each costs one verification."""
    with tempfile.TemporaryDirectory() as where:
        subprocess.run([sys.executable, os.path.join(hss.TOP, "checks/device.py"), where], check=True)
        with open(os.path.join(where, "question"), "rb") as made:
            question = made.read()
        count = 2**20 // len(question)
        spent = seconds([AGENT, "run"], question * count, where)
        print(f"teep_agent run over 1 MiB of signed questions: {count / spent:.0f} a second")


def appends():
    for bodies in (2500, 5000, 10000):
        print(f"{bodies} bodies of 100 bytes appended: {seconds([hss.PROGRAM, 'append', str(bodies)], b''):.3f} s")


if __name__ == "__main__":
    if not os.path.exists(hss.PROGRAM):
        sys.exit("rt ci has left no crates/benchmarks/out/benchmarks")
    cost = block_cost()
    rates(cost)
    grown(cost)
    signatures(cost)
    frames()
    appends()
