#!/usr/bin/env python3
"""Signs and verifies by RFC 8554 with hashlib alone, beside the proved signer and verifier, which share no line with this.

The proved verifier must take what is signed here, and refuse it with a field changed. What the proved signer signs
must verify here, and be what is signed here. Run it after `rt ci`, which leaves the program `benchmarks`. Without the
program it says so and ends with 0.

`--short` takes fewer places, for every run of the gate, and grows no trees of height 10 and width 8 to compare
signatures; without it each field of each signature is changed in several ways. Trees of height 15 are never grown:
a signature draws the other nodes of its path at random, and the root is what they lead to.
"""
import concurrent.futures
import hashlib
import itertools
import os
import random
import subprocess
import sys

TOP = os.path.dirname(os.path.dirname(os.path.abspath(__file__)))
PROGRAM = os.path.join(TOP, "crates/benchmarks/out/benchmarks")
OTS = {1: (1, 265, 7), 2: (2, 133, 6), 4: (3, 67, 4), 8: (4, 34, 0)}
LMS = {5: 5, 10: 6, 15: 7}
KEY_SEED = b"\x11" * 32
SIGNED_AT = (31, 33, 0, 1023, 1024, 2**20 - 1)


def u(n, size):
    return n.to_bytes(size, "big")


def hashed(*parts):
    return hashlib.sha256(b"".join(parts)).digest()


def digits(text, w, count):
    return [(text[i * w // 8] >> (8 - (w * (i % (8 // w)) + w))) & (2**w - 1) for i in range(count)]


class Tree:
    """One LMS tree whose private parts come from a seed (RFC 8554, appendix A)."""

    def __init__(self, height, width, identifier, seed):
        self.height, self.width, self.identifier, self.seed = height, width, identifier, seed
        self.code, self.p, self.ls = OTS[width]
        leaves = 2**height
        self.nodes = {leaves + q: self.leaf(q) for q in range(leaves)}
        for r in range(leaves - 1, 0, -1):
            self.nodes[r] = hashed(identifier, u(r, 4), b"\x83\x83", self.nodes[2 * r], self.nodes[2 * r + 1])

    def private(self, q, i):
        return hashed(self.identifier, u(q, 4), u(i, 2), b"\xff", self.seed)

    def chain(self, q, i, start, end, value):
        head = self.identifier + u(q, 4) + u(i, 2)
        for j in range(start, end):
            value = hashed(head, u(j, 1), value)
        return value

    def leaf(self, q):
        ends = [self.chain(q, i, 0, 2**self.width - 1, self.private(q, i)) for i in range(self.p)]
        key = hashed(self.identifier, u(q, 4), b"\x80\x80", *ends)
        return hashed(self.identifier, u(2**self.height + q, 4), b"\x82\x82", key)

    def public(self):
        return u(LMS[self.height], 4) + u(self.code, 4) + self.identifier + self.nodes[1]

    def path(self, q):
        node, path = 2**self.height + q, []
        while node > 1:
            path.append(self.nodes[node ^ 1])
            node //= 2
        return path

    def sign(self, q, message):
        w = self.width
        randomizer = hashed(self.identifier, u(q, 4), b"\xff\xfd\xff", self.seed)
        digest = hashed(self.identifier, u(q, 4), b"\x81\x81", randomizer, message)
        checksum = sum(2**w - 1 - d for d in digits(digest, w, 256 // w)) << self.ls
        signed = digits(digest + u(checksum, 2), w, self.p)
        parts = [self.chain(q, i, 0, a, self.private(q, i)) for i, a in enumerate(signed)]
        path = self.path(q)
        return u(q, 4) + u(self.code, 4) + randomizer + b"".join(parts) + u(LMS[self.height], 4) + b"".join(path)


class DrawnTree(Tree):
    """A tree of which one leaf alone is computed, and the path to the root is drawn."""

    def __init__(self, height, width, q, draw):
        self.height, self.width = height, width
        self.identifier, self.seed = draw.randbytes(16), draw.randbytes(32)
        self.code, self.p, self.ls = OTS[width]
        self.q, self.drawn = q, [draw.randbytes(32) for _ in range(height)]
        node, value = 2**height + q, self.leaf(q)
        for other in self.drawn:
            pair = (other, value) if node % 2 else (value, other)
            node //= 2
            value = hashed(self.identifier, u(node, 4), b"\x83\x83", *pair)
        self.nodes = {1: value}

    def path(self, q):
        assert q == self.q
        return self.drawn


def top_secret(key_seed):
    """The identifier and the seed of the top tree of a key."""
    return hashed(b"\x49", key_seed)[:16], hashed(b"\x53", key_seed)


def lower_secret(identifier, seed, leaf):
    """Those of the tree below a leaf of a tree."""
    base = identifier + u(leaf, 4)
    return hashed(base, b"\xff\xfc\xff", seed)[:16], hashed(base, b"\xff\xfe\xff", seed)


def signed(levels, height, width, leaf, message, key_seed=KEY_SEED):
    """The public key and a signature of a key seed."""
    top = Tree(height, width, *top_secret(key_seed))
    public = u(levels, 4) + top.public()
    if levels == 1:
        return public, u(0, 4) + top.sign(leaf, message)
    t, q = divmod(leaf, 2**height)
    lower = Tree(height, width, *lower_secret(top.identifier, top.seed, t))
    return public, u(1, 4) + top.sign(t, lower.public()) + lower.public() + lower.sign(q, message)


def case(public, message, signature):
    return public + u(len(message), 4) + message + signature


def verified(given, rounds=1):
    done = subprocess.run([PROGRAM, "verify", str(rounds)], input=given, capture_output=True, check=True)
    return done.stdout.decode().strip() == f"{rounds} of {rounds}"


def count_taken(cases):
    """How many of the cases the proved verifier takes."""
    given = b"".join(u(len(one), 4) + one for one in cases)
    done = subprocess.run([PROGRAM, "cases", str(len(cases))], input=given, capture_output=True, check=True)
    good, whole = done.stdout.decode().strip().split(" of ")
    assert whole == str(len(cases))
    return int(good)


def chained(trees, leaves, message):
    """A public key and a signature of trees below each other, each of its own height and width."""
    links = b"".join(tree.sign(q, below.public()) + below.public() for tree, q, below in zip(trees, leaves, trees[1:]))
    last = trees[-1].sign(leaves[-1], message)
    return u(len(trees), 4) + trees[0].public(), u(len(trees) - 1, 4) + links + last


def fields(trees):
    """Each field of a signature by its name, with its place and length."""
    named, at = [("the number of keys", 0, 4)], 4
    for level, tree in enumerate(trees):
        parts = [("leaf", 4), ("LM-OTS type", 4), ("randomizer", 32), ("first chain", 32), ("middle chains", 32 * (tree.p - 2)), ("last chain", 32)]
        parts += [("LMS type", 4), ("first node", 32), ("middle nodes", 32 * (tree.height - 2)), ("last node", 32)]
        if level + 1 < len(trees):
            parts += [("next LMS type", 4), ("next LM-OTS type", 4), ("next identifier", 16), ("next root", 32)]
        for name, size in parts:
            named.append((f"{name} of level {level}", at, size))
            at += size
    return named, at


def changes(trees, signature, draw, short):
    """The signature changed in one field at a time, and cut and lengthened, each with what was done."""
    named, end = fields(trees)
    assert end == len(signature), (end, len(signature))
    for name, at, size in named:
        old = signature[at : at + size]
        if size == 4:
            number = int.from_bytes(old, "big")
            news = [u(n % 2**32, 4) for n in (number + 1, number - 1, 0, 2**32 - 1)]
            if name.startswith("leaf"):
                tree = trees[int(name.split()[-1])]
                news.append(u(2**tree.height, 4))
        else:
            places = [0, size - 1] + [draw.randrange(size) for _ in range(1 if short else 6)]
            news = [old[:p] + bytes([old[p] ^ 1 << draw.randrange(8)]) + old[p + 1 :] for p in places]
        for new in news:
            if new != old:
                yield name, signature[:at] + new + signature[at + size :]
    for name, cut in [("a byte less", signature[:-1]), ("a byte more", signature + b"\0"), ("a node less", signature[:-32]), ("nothing", b""), ("three bytes", signature[:3])]:
        yield name, cut
    if len(trees) > 1:
        yield "a level less", u(len(trees) - 2, 4) + signature[4:]


def cases(short):
    """Trees and leaves: each width and height alone, then one to eight levels of mixed kinds."""
    draw = random.Random(8554)
    for width in OTS:
        for height in LMS:
            if height == 5:
                leaf = draw.randrange(32)
                yield [Tree(height, width, draw.randbytes(16), draw.randbytes(32))], [leaf]
            else:
                leaf = draw.randrange(2**height)
                yield [DrawnTree(height, width, leaf, draw)], [leaf]
    for levels in range(2, 9):
        leaves = [draw.randrange(32) for _ in range(levels)]
        kinds = [(draw.choice(list(LMS)), draw.choice([4, 8] if short else list(OTS))) for _ in range(levels)]
        yield [DrawnTree(height, width, q, draw) for (height, width), q in zip(kinds, leaves)], leaves


def judged(trees, leaves, short):
    """How many changed signatures were refused, and what went wrong."""
    draw, message = random.Random(len(trees)), b"TEEP"
    public, signature = chained(trees, leaves, message)
    made = [("message", case(public, message + b"!", signature))]
    made += [(name, case(public, message, new)) for name, new in changes(trees, signature, draw, short)]
    good, wrong = case(public, message, signature), []
    if count_taken([given for _, given in made] + [good]) != 1:
        wrong += [] if verified(good) else ["refused as it is"]
        wrong += [f"taken with another {name}" for name, given in made if verified(given)]
    return len(made), wrong


class Refused(Exception):
    """Why a signature is not valid."""


def need(holds, cause):
    if not holds:
        raise Refused(cause)


class Bytes:
    """The bytes of a signature, taken from the front."""

    def __init__(self, text):
        self.text, self.at = text, 0

    def take(self, size):
        self.at += size
        need(self.at <= len(self.text), "too short")
        return self.text[self.at - size : self.at]

    def number(self):
        return int.from_bytes(self.take(4), "big")


def root_of(height, width, identifier, signature, message):
    """The leaf that signs, and the root that a signature of a tree leads to (RFC 8554, algorithm 6a)."""
    code, p, ls = OTS[width]
    q = signature.number()
    need(q < 2**height, "no such leaf")
    need(signature.number() == code, "another LM-OTS type")
    randomizer = signature.take(32)
    digest = hashed(identifier, u(q, 4), b"\x81\x81", randomizer, message)
    checksum = sum(2**width - 1 - d for d in digits(digest, width, 256 // width)) << ls
    ends = []
    for i, digit in enumerate(digits(digest + u(checksum, 2), width, p)):
        value = signature.take(32)
        for j in range(digit, 2**width - 1):
            value = hashed(identifier, u(q, 4), u(i, 2), u(j, 1), value)
        ends.append(value)
    need(signature.number() == LMS[height], "another LMS type")
    node = 2**height + q
    value = hashed(identifier, u(node, 4), b"\x82\x82", hashed(identifier, u(q, 4), b"\x80\x80", *ends))
    while node > 1:
        other = signature.take(32)
        pair = (other, value) if node % 2 else (value, other)
        node //= 2
        value = hashed(identifier, u(node, 4), b"\x83\x83", *pair)
    return q, value


def leaf_signed(levels, height, width, public, message, signature):
    """The leaf at which a valid signature signs (RFC 8554, 6.3)."""
    need(public[:4] == u(levels, 4) and len(public) == 60, "another public key")
    rest, key, leaf = Bytes(signature), public[4:], 0
    need(rest.number() == levels - 1, "another number of levels")
    size = 12 + 32 * (OTS[width][1] + 1 + height)
    for level in range(levels):
        need(key[:8] == u(LMS[height], 4) + u(OTS[width][0], 4), "other types")
        last = level == levels - 1
        text = message if last else signature[rest.at + size : rest.at + size + 56]
        q, root = root_of(height, width, key[8:24], rest, text)
        need(root == key[24:], f"another root at level {level}")
        leaf = leaf * 2**height + q
        key = key if last else rest.take(56)
    need(rest.at == len(signature), "too long")
    return leaf


def refusal(leaf, kind, public, message, signature):
    """Why a signature is not valid at a leaf, or None where it is."""
    try:
        at = leaf_signed(*kind, public, message, signature)
        return None if at == leaf else f"signed at leaf {at}"
    except Refused as cause:
        return str(cause)


def vectors(key_seed, leaf, message):
    """What each kind of key that has the leaf signs: its levels, height and width, its public key, the signature."""
    done = subprocess.run([PROGRAM, "vectors", str(leaf)], input=key_seed + message, capture_output=True, check=True)
    for line in done.stdout.decode().splitlines():
        *kind, public, signature = line.split()
        yield tuple(int(n) for n in kind), bytes.fromhex(public), bytes.fromhex(signature)


def signer_judged(leaf, short):
    """How many kinds of keys signed at a leaf, and what went wrong."""
    draw = random.Random(leaf)
    key_seed, message = draw.randbytes(32), draw.randbytes(draw.randrange(100))
    made, wrong = list(vectors(key_seed, leaf, message)), []
    kinds = [kind for kind in itertools.product((1, 2), (5, 10), (4, 8)) if leaf < 2 ** (kind[0] * kind[1])]
    if [kind for kind, _, _ in made] != kinds:
        wrong.append("other kinds of keys")
    for kind, public, signature in made:
        name = "levels {} height {} width {}".format(*kind)
        cause = refusal(leaf, kind, public, message, signature)
        if cause:
            wrong.append(f"{name}: {cause}")
        place = draw.randrange(len(signature))
        changed = signature[:place] + bytes([signature[place] ^ 1 << draw.randrange(8)]) + signature[place + 1 :]
        if refusal(leaf, kind, public, message, changed) is None:
            wrong.append(f"{name}: taken with another bit at {place}")
        if not short or kind[1:] != (10, 8):
            if (public, signature) != signed(*kind, leaf, message, key_seed):
                wrong.append(f"{name}: not what is signed here")
    if count_taken([case(public, message, signature) for _, public, signature in made]) != len(made):
        wrong.append("refused by the proved verifier")
    return len(made), wrong


def told(what, unit, answer):
    """Prints what was judged, and says whether anything went wrong."""
    count, wrong = answer
    print(f"{what}: {count} {unit}, {'; '.join(wrong) if wrong else 'ok'}")
    return bool(wrong)


def main():
    if not os.path.exists(PROGRAM):
        print("skipped: rt ci has left no crates/benchmarks/out/benchmarks")
        return 0
    short, failed = "--short" in sys.argv[1:], 0
    with concurrent.futures.ProcessPoolExecutor(os.cpu_count()) as pool:
        trees = list(cases(short))
        leaves = SIGNED_AT[:2] if short else SIGNED_AT
        signer = [pool.submit(signer_judged, leaf, short) for leaf in leaves]
        verifier = [pool.submit(judged, *one, short) for one in trees]
        for (made, _), done in zip(trees, verifier):
            kinds = " ".join(f"{tree.height}/{tree.width}" for tree in made)
            failed += told(f"height/width {kinds}", "changes", done.result())
        for leaf, done in zip(leaves, signer):
            failed += told(f"signed at leaf {leaf}", "kinds of keys", done.result())
    return 1 if failed else 0


if __name__ == "__main__":
    sys.exit(main())
