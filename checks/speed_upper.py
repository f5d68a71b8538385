#!/usr/bin/env python3
"""Times the upper crates' proved programs, by hand: programs that are compared take turns, and the best of the runs of
each is taken. It judges nothing.

Run it after `rt ci`, on a quiet machine.
"""
import os
import subprocess
import sys
import tempfile
import time

sys.dont_write_bytecode = True
import device
import hss

UPPER = os.path.join(hss.TOP, "crates/benchmarks_upper/out/benchmarks_upper")
AGENT = os.path.join(hss.TOP, "crates/teep_agent/out/teep_agent")
TURNS = 7
MIB = 2**20
PARAMS = (2, 10, 4)


class Task:
    """One program over one input; `one` is a round of it: what `many` rounds take more than one."""

    def __init__(self, program, work, many, given=b"", where=None):
        self.words, self.many, self.given, self.where = [program, work], many, given, where
        self.best = {}

    def run(self, rounds):
        start = time.perf_counter()
        done = subprocess.run(self.words + [str(rounds)], input=self.given, capture_output=True, cwd=self.where)
        spent = time.perf_counter() - start
        if done.returncode != 0 or done.stdout.decode().strip() != f"{rounds} of {rounds}":
            raise SystemExit(f"{self.words}, {rounds} rounds: status {done.returncode}, {done.stdout}")
        self.best[rounds] = min(spent, self.best.get(rounds, spent))

    def turn(self):
        self.run(1)
        self.run(self.many + 1)

    @property
    def one(self):
        return (self.best[self.many + 1] - self.best[1]) / self.many


class Questions(Task):
    """An agent over a new image each time, which answers so many signed questions."""

    def __init__(self, image, question, many):
        super().__init__(AGENT, "run", many)
        self.image, self.question = image, question

    def run(self, rounds):
        with tempfile.TemporaryDirectory(dir=".") as where:
            with open(os.path.join(where, "agent.img"), "wb") as out:
                out.write(self.image)
            start = time.perf_counter()
            done = subprocess.run(self.words, input=self.question * rounds, capture_output=True, cwd=where)
            spent = time.perf_counter() - start
        if done.returncode != 0 or done.stdout.count(b"\x84\x44\xa1\x01\x38\x2d\xa1\x04\x41\x64") != rounds:
            raise SystemExit(f"the agent answered other than {rounds} questions: status {done.returncode}")
        self.best[rounds] = min(spent, self.best.get(rounds, spent))


class Start(Questions):
    """An agent over a new image, which is asked nothing: what a start costs, the process itself with it."""

    def __init__(self, image):
        super().__init__(image, b"", 0)

    def turn(self):
        self.run(0)

    @property
    def one(self):
        return self.best[0]


def taking_turns(*tasks):
    for _ in range(TURNS):
        for task in tasks:
            task.turn()
    return [task.one for task in tasks]


def manifests():
    lower = lambda work, many: Task(hss.PROGRAM, work, many)
    block, envelope, digest, read, write = taking_turns(
        Task(hss.PROGRAM, "hash", 2, bytes(64 * 1000000 - 9)), lower("read_envelope", 200), lower("hold_digest", 20000), lower("read_sequence", 100), lower("write_sequence", 100)
    )
    print(f"one block of a long hash: {block * 1e3:.0f} ns")
    print(f"read an envelope with 1 MiB attached: {envelope * 1e6:.0f} us, {MIB / envelope / 1e6:.0f} MB/s; its digest looked at: {digest * 1e6:.2f} us")
    print(f"a sequence of 10,000 commands (90,003 bytes): read {read * 1e3:.2f} ms, {90003 / read / 1e6:.1f} MB/s; written {write * 1e3:.2f} ms, {90003 / write / 1e6:.1f} MB/s")


def engine():
    digest, run, fetch = taking_turns(*(Task(UPPER, work, 10) for work in ("hash_payload", "run_manifest", "fetch_manifest")))
    print(f"an 8 MiB payload: hashed {digest * 1e3:.1f} ms; a manifest that installs it {run * 1e3:.1f} ms, {run / digest:.3f} times; one that waits for it {fetch * 1e3:.1f} ms, {fetch / digest:.3f} times")


def exchanges():
    small, large = taking_turns(Task(UPPER, "small_exchange", 5000), Task(UPPER, "large_body", 10))
    print(f"a POST of 100 bytes written and read: {small * 1e6:.1f} us; one of 16 MiB read: {large * 1e3:.1f} ms, {16 * MIB / large / 1e6:.0f} MB/s")


def stores(where):
    mount = taking_turns(Task(UPPER, "mount_half", 10))[0]
    image = 65536 + 16 + 2 * (2 * 32 * MIB + 65536)
    print(f"a store of quota 32 MiB, half full, mounted: {mount * 1e3:.1f} ms, {image / mount / 1e6:.0f} MB/s of its image, {16 * MIB / mount / 1e6:.0f} of what it keeps")
    subprocess.run([UPPER, "make_image", "1"], cwd=where, check=True, capture_output=True)
    commit, puts = taking_turns(Task(UPPER, "commit_leaf", 300, where=where), Task(UPPER, "bare_puts", 300, where=where))
    print(f"a commit of the next leaf, over a file: {commit * 1e6:.0f} us, the same puts and syncs bare {puts * 1e6:.0f} us: {puts / commit:.2f} of their rate")
    return commit


def question(where):
    """A signed question against its parts: its verification, a signature and a commit."""
    manager, author = device.tree(0x11), device.tree(0x22)
    key = hss.u(1, 4) + manager.public()
    text = device.signed_text(device.QUESTION)
    asked = device.question(manager)
    subprocess.run([UPPER, "make_image", "1"], cwd=where, check=True, capture_output=True)
    whole, verify, sign, commit = taking_turns(
        Questions(device.image(manager, author, PARAMS), asked, 300),
        Task(hss.PROGRAM, "verify", 300, hss.case(key, text, hss.u(0, 4) + manager.sign(0, text))),
        Task(hss.PROGRAM, "sign_two", 300),
        Task(UPPER, "commit_leaf", 300, where=where),
    )
    parts = verify + sign + commit
    print(f"a signed question: {whole * 1e6:.0f} us; verification {verify * 1e6:.0f}, signature {sign * 1e6:.0f}, commit {commit * 1e6:.0f}: {whole / parts:.3f} times their sum")


def start():
    """A start of the agent against the growing of its trees by as many workers."""
    whole, grown = taking_turns(Start(device.image(device.tree(0x11), device.tree(0x22), PARAMS)), Task(hss.PROGRAM, "grow_by_four", 3))
    print(f"a start of the agent, key of two levels, height 10, width 4: {whole * 1e3:.0f} ms, its trees grown by four workers {grown * 1e3:.0f} ms: {whole / grown:.3f} times")


if __name__ == "__main__":
    for program in (hss.PROGRAM, UPPER, AGENT):
        if not os.path.exists(program):
            sys.exit(f"rt ci has left no {program}")
    with tempfile.TemporaryDirectory(dir=".") as where:
        manifests()
        engine()
        exchanges()
        stores(where)
        question(where)
        start()
