#!/usr/bin/env python3
"""How long the first opening of a store of the older format takes, which moves its repositories into the newer one.

    bench/older_speed.py PROGRAM [OBJECTS] [--runs N]

A store of one repository with so many objects (without a number 60,000) is made twice, with twelve objects a page: in the older
format, and in the newer one. Of each a copy is opened, by a run without items, and the older one is read by a check, which moves
nothing. Told are the median seconds by the clock and of the processor, and the most memory; and what the migration takes: what the
opening of the older store takes besides its check. Files are synced.
"""
import argparse
import os
import pathlib
import shutil
import subprocess
import sys
import tempfile
import time

sys.dont_write_bytecode = True
TOP = pathlib.Path(__file__).resolve().parent.parent
sys.path[:0] = [str(TOP / "checks"), str(TOP / "tools")]
import older_store
import store_files

SETUP = """setup
free class Box { int n; Box next; method int get() { return this.n; } }
root a = new Box();
client 1
"""


def play(program, store, script, word="play"):
    """Seconds by the clock, of the processor, and megabytes of a run."""
    with tempfile.TemporaryFile() as given:
        given.write(script.encode())
        given.seek(0)
        begun = time.monotonic()
        ran = subprocess.Popen([program, word, "--store", store], stdin=given, stdout=subprocess.PIPE)
        told = ran.stdout.read()
        _, status, used = os.wait4(ran.pid, 0)
        ran.returncode = os.waitstatus_to_exitcode(status)
    if ran.returncode != 0:
        sys.exit(f"a run ended with status {ran.returncode}: {told[:200]!r}")
    return time.monotonic() - begun, used.ru_utime + used.ru_stime, used.ru_maxrss // 1024


def number(width, value):
    return value.to_bytes(width, "big")


def fill(store, objects):
    """Puts so many objects into a new store: its pages from 1 on, twelve objects each, are installed with side 0."""
    found = store_files.Repository(pathlib.Path(store), 0, lambda wrong: sys.exit(str(wrong)))
    log = pathlib.Path(store, "0.log0").read_bytes()
    value = number(2, 0) + number(4, 0) + b"\2\1" + number(8, 7) + b"\3"
    count = -(-objects // store_files.SLOTS)
    with open(f"{store}/0.pages", "r+b") as pages:
        for page in range(1, count + 1):
            slots = min(store_files.SLOTS, objects - (page - 1) * store_files.SLOTS)
            held = b"".join(number(1, slot) + number(2, len(value)) + value for slot in range(slots))
            pages.seek(store_files.page_place(page, 0))
            pages.write((b"TP\2" + number(1, slots) + number(4, page) + held).ljust(store_files.PAGE_BYTES, b"\0"))
    state = found.state
    sides = number(4, count + 1) + b"".join(number(4, page) + b"\0" for page in range(count + 1))
    head = (log[13:28] + log[28:41] + number(4, count + 1) + number(4, len(state.classes.words)) + state.classes.words.encode()
            + roots_of(state) + number(4, 0) + sides + number(4, 0) * 4)
    lives = log[13 + len(found.log.head.data) :]
    pathlib.Path(store, "0.log0").write_bytes(log[:9] + number(4, len(head)) + head + lives)


def roots_of(state):
    told = [number(4, len(word)) + word.encode() + number(2, place) + number(1, name.repo) + number(4, name.page) + number(1, name.slot) for word, place, name in state.roots]
    return number(4, len(told)) + b"".join(told)


def medians(took):
    return [sorted(column)[len(took) // 2] for column in zip(*took)]


def opened(program, store, runs):
    """The medians of opening copies of a store: seconds, of the processor, megabytes."""
    took = []
    for _ in range(runs):
        copy = store + ".copy"
        subprocess.run(["cp", "-r", store, copy], check=True)
        took.append(play(program, copy, "client 1\n"))
        found = older_store.formats(copy, 1)
        if found != [store_files.FORMAT]:
            sys.exit(f"the store has the formats {found} behind its opening")
        shutil.rmtree(copy)
    return medians(took)


def main():
    parser = argparse.ArgumentParser(description=__doc__, formatter_class=argparse.RawDescriptionHelpFormatter)
    parser.add_argument("program")
    parser.add_argument("objects", type=int, nargs="?", default=60_000)
    parser.add_argument("--runs", type=int, default=5)
    given = parser.parse_args()
    program = os.path.abspath(given.program)
    with tempfile.TemporaryDirectory(prefix="older-speed-") as room:
        newer, older = f"{room}/newer", f"{room}/older"
        os.mkdir(newer)
        play(program, newer, SETUP)
        fill(newer, given.objects)
        subprocess.run(["cp", "-r", newer, older], check=True)
        older_store.make_older(older)
        took = {
            "older format, checked": medians([play(program, older, "client 1\n", "check") for _ in range(given.runs)]),
            "older format, opened": opened(program, older, given.runs), "newer format, opened": opened(program, newer, given.runs),
        }  # fmt: skip
        for name, (seconds, busy, memory) in took.items():
            print(f"{given.objects} objects in the {name}: {seconds:.3f} s, {busy:.3f} s of the processor, {memory} MB")
        opening, checking = took["older format, opened"], took["older format, checked"]
        print(f"the migration: {opening[0] - checking[0]:.3f} s, {opening[1] - checking[1]:.3f} s of the processor")


if __name__ == "__main__":
    main()
