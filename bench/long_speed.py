#!/usr/bin/env python3
"""How long scripts of 8 MB take that are dear to read: locals by the thousand, calls in chains, one class with long methods.

    bench/long_speed.py PROGRAM

For each script: its size, seconds by the clock, seconds of the processor, the most memory, and bytes of memory a byte of it.
Each is only checked, not run.
"""
import os
import subprocess
import sys
import time

LONGEST = 8_388_608
SETUP = """setup
free class Box {
    int n;
    method Box me() { return this; }
    method int get() { return this.n; }
}
root a = new Box();
client 1
"""


def filled(front, piece, end):
    """A script of pieces, as long as one may be."""
    parts, size = [front], len(front) + len(end)
    while True:
        part = piece(len(parts))
        size += len(part)
        if size > LONGEST:
            return "".join([*parts, end])
        parts.append(part)


def local(number):
    return f"var int v{number} = 0; "


def scripts():
    """Each script with what it is of."""
    for count in (2_000, 8_000, 32_000):
        yield f"{count:,} locals in one item", SETUP + "tx { " + "".join(map(local, range(count))) + "}\n"
    yield "locals", filled(SETUP + "tx { ", local, "}\n")
    yield "calls in chains of 25", filled(SETUP, lambda _: "tx { print a" + ".me()" * 25 + ".get(); }\n", "")
    methods = "".join(f"method int m{it}() {{ var int x = 0; {'x = x + 1; ' * 2_700}return x; }} " for it in range(64))
    yield "a class with 64 methods of 30 kB", f"setup free class Box {{ int n; {methods}}} root a = new Box();\nclient 1 tx {{ print a.m0(); }}\n"


def checked(program, script):
    """The clock's seconds, and what the system tells of the process, of a check of this script."""
    began = time.monotonic()
    with subprocess.Popen([program, "check"], stdin=subprocess.PIPE, stdout=subprocess.PIPE) as process:
        process.stdin.write(script.encode())
        process.stdin.close()
        answer = process.stdout.read()
        _, status, used = os.wait4(process.pid, 0)
        process.returncode = os.waitstatus_to_exitcode(status)
    return time.monotonic() - began, used, answer


def main():
    for name, script in scripts():
        seconds, used, answer = checked(sys.argv[1], script)
        if answer != b"ok\n":
            sys.exit(f"{name}: {answer[:100]!r}")
        memory = used.ru_maxrss * 1024
        print(
            f"{name}: {len(script) / 1e6:.2f} MB, {seconds:.2f} s, {used.ru_utime + used.ru_stime:.2f} s of the processor, "
            f"{memory / 1e6:.0f} MB, {memory / len(script):.0f} bytes a byte"
        )


if __name__ == "__main__":
    main()
