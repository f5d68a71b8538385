#!/usr/bin/env python3
"""Sees in a trace of a built program that its file is written as its contracts say.

    trace.py PROGRAM IMAGE STDIN [WORD..]

runs a copy of PROGRAM with the words over a copy of the file IMAGE and with the file STDIN as standard input, under
strace. Each write to the image is followed by a sync of the image before the next write to it and before any byte goes
to standard output; nothing but the image is written, and the image and the standard streams are distinct files. Where
strace is not installed it says so and passes.
"""
import os
import re
import shutil
import subprocess
import sys
import tempfile

CALLS = "openat,open,pwrite64,write,fdatasync,fsync,flock,close"
CALL = re.compile(r"^(?:\d+ +)?(\w+)\((.*)\) += (-?\d+)")


def traced(program, image, stdin, words):
    """The calls of a run, each with its arguments and its answer, and the run's status."""
    with tempfile.TemporaryDirectory() as folder:
        shutil.copy(image, folder)
        log = os.path.join(folder, "trace")
        command = ["strace", "-f", "-o", log, "-e", "trace=" + CALLS, os.path.abspath(program)] + words
        with open(stdin, "rb") as given:
            status = subprocess.run(command, cwd=folder, stdin=given, stdout=subprocess.PIPE, timeout=120).returncode
        with open(log) as lines:
            return [match.groups() for match in map(CALL.match, lines) if match], status


def faults(calls, name):
    """What a trace shows that it may not."""
    image = None
    pending = False
    locked = False
    for call, arguments, answer in calls:
        number = arguments.split(",")[0]
        if call in ("open", "openat") and f'"{name}"' in arguments and int(answer) >= 0:
            image = answer
            if int(image) < 3:
                yield f"the image has the descriptor {image} of a standard stream"
        elif call == "close" and number == image:
            if pending:
                yield "the image is closed with a write that was not synced"
            image, locked = None, False
        elif call == "flock" and number == image:
            locked = answer == "0"
        elif call == "pwrite64":
            if number != image or not locked:
                yield f"a write to another file, or to one that is not locked: {arguments[:60]}"
            elif pending:
                yield f"a write behind one that was not synced: {arguments[:60]}"
            pending = True
        elif call in ("fdatasync", "fsync") and number == image and answer == "0":
            pending = False
        elif call == "write" and number == "1" and pending:
            yield f"output behind a write that was not synced: {arguments[:60]}"


def main():
    if len(sys.argv) < 4:
        sys.exit(__doc__)
    if shutil.which("strace") is None:
        print("trace: skipped, since strace is not installed")
        return
    program, image, stdin, *words = sys.argv[1:]
    calls, status = traced(program, image, stdin, words)
    found = list(faults(calls, os.path.basename(image)))
    writes = sum(call == "pwrite64" for call, _, _ in calls)
    for fault in found:
        print("trace:", fault)
    print(f"trace: status {status}, {writes} writes to the image, {len(found)} faults")
    sys.exit(1 if found else 0)


if __name__ == "__main__":
    main()
