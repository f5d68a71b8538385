#!/usr/bin/env python3
"""Kills the built agent at each of its calls that reads, writes or syncs, and starts it again over what is left.

A device is asked two questions, and strace kills the agent as it enters one call after the other. What went out until
then is a front of the replies at leaves 0 and 1; the image counts as many leaves as replies have begun, or one more,
and the agent that is started again signs at the next leaf and at no other. Then a second agent is started over the
image of one that lives: it ends with status 3 or 6. Without the program, which `rt ci` leaves, or without strace it
says so and ends with 0.
"""
import os
import shutil
import subprocess
import sys
import tempfile

sys.dont_write_bytecode = True
import device
import hss
import replies

CALLS = ("pread64", "pwrite64", "fdatasync", "fsync", "read", "write")
KILLED = -9
# status 3: the image is none that can be mounted; 6: a call of the disk failed
TURNED_AWAY = (3, 6)


class Device:
    """What is made once: keys, a new image, a question, and the replies at the first leaves."""

    def __init__(self):
        manager, author, key = device.tree(0x11), device.tree(0x22), device.tree(0x33)
        self.public = hss.u(1, 4) + key.public()
        self.image = device.image(manager, author)
        self.question = device.question(manager)
        self.replies = [device.reply(key, leaf) for leaf in range(3)]

    def put(self, where):
        with open(os.path.join(where, "agent.img"), "wb") as image:
            image.write(self.image)


def run(command, where, given):
    done = subprocess.run(command, cwd=where, input=given, capture_output=True, timeout=120)
    return done.returncode, done.stdout


def left(where):
    return replies.leaves_used(replies.read(where, "agent.img"))


def begun(made, sent):
    """How many replies have begun in what was sent, which is a front of them."""
    whole = b"".join(made.replies)
    hss.need(whole.startswith(sent), "what was sent is no front of the replies")
    ends = [sum(map(len, made.replies[:n])) for n in range(len(made.replies))]
    return sum(end < len(sent) for end in ends)


def stopped(made, call, number):
    """Whether there is such a call, at which the agent was killed; then also that it goes on as it must."""
    with tempfile.TemporaryDirectory() as where:
        made.put(where)
        kill = ["strace", "-f", "-o", os.devnull, "-e", f"inject={call}:signal=KILL:when={number}", replies.AGENT, "run"]
        status, sent = run(kill, where, made.question * 2)
        if status == 0:
            return False
        name = f"killed at {call} {number}"
        hss.need(status == KILLED, f"{name}: status {status}")
        used = left(where)
        hss.need(used - begun(made, sent) in (0, 1), f"{name}: {used} leaves are used, {begun(made, sent)} replies have begun")
        status, again = run([replies.AGENT, "run"], where, made.question)
        hss.need(status == 0 and again == made.replies[used], f"{name}: the next start does not sign at leaf {used}")
        hss.need(left(where) == used + 1, f"{name}: the next start leaves {left(where)} leaves used")
        return True


def stops(made):
    """How many calls the agent was killed at, one run each."""
    count = 0
    for call in CALLS:
        number = 1
        while stopped(made, call, number):
            number += 1
        count += number - 1
    return count


def second(made):
    """The status of an agent that is started while another lives over the same image."""
    with tempfile.TemporaryDirectory() as where:
        made.put(where)
        first = subprocess.Popen([replies.AGENT, "run"], cwd=where, stdin=subprocess.PIPE, stdout=subprocess.PIPE)
        first.stdin.write(made.question)
        first.stdin.flush()
        said = first.stdout.read(len(made.replies[0]))
        hss.need(said == made.replies[0], "the first agent does not answer")
        status, sent = run([replies.AGENT, "run"], where, made.question)
        hss.need(status in TURNED_AWAY and sent == b"", f"a second agent ends with status {status}, and sends {len(sent)} bytes")
        first.stdin.close()
        hss.need(first.wait(120) == 0 and left(where) == 1, "the first agent does not end as it should")
        return status


def main():
    if not os.path.exists(replies.AGENT):
        print("stops: there is no proved program, so nothing was stopped")
        return
    made = Device()
    print(f"stops: beside an agent that lives a second one ends with status {second(made)}")
    if shutil.which("strace") is None:
        print("stops: the rest is skipped, since strace is not installed")
        return
    count = stops(made)
    hss.need(count > 20, f"only {count} calls were seen")
    print(f"stops: killed at each of {count} calls, and started again at the next leaf")


if __name__ == "__main__":
    try:
        main()
    except hss.Refused as cause:
        sys.exit(f"stops: {cause}")
