#!/usr/bin/env python3
"""What must cost the same however large what lies beside it is: instructions an item, of a small one and of larger ones.

    bench/level_speed.py PROGRAM [CASE..]

PROGRAM is an executable with its symbols, or a script whose last line starts one. Each CASE is one of the rows below; without
any, all but the largest are counted. valgrind counts, so other work on the machine changes nothing. An item's cost is the
difference of two runs of other lengths, but where a row says *of all*: there it is the whole run's, by its items.
"""
import os
import re
import subprocess
import sys

sys.path.insert(0, os.path.join(os.path.dirname(os.path.abspath(__file__)), "..", "checks"))
sys.dont_write_bytecode = True
import bank

ADD = "method int add(int k) { this.n = this.n + k; return this.n; } "
BOX = "free class Box { int n; " + ADD + "} "
NODE = (
    "free class Node { int n; Node next; method Node go() { return this.next; } method int get() { return this.n; } "
    "method int add(int k) { this.n = this.n + k; return this.n; } "
    "method int grow() { var Node x = new Node(); x.follow(this.next); this.next = x; return 0; } "
    "method int follow(Node x) { this.next = x; return 0; } } "
)
SAME = NODE.replace("free class", "class", 1).replace("int n;", "int n = old.n;", 1).replace("Node next;", "Node next = old.next;", 1)
UPGRADE = "upgrade { " + SAME + "}\n"
MAKE = 60  # objects that one transaction makes
PART = 900  # objects that one transaction visits


class Run:
    """One run: the words behind the program, its script, and how many items it is to be divided by."""

    def __init__(self, script, items, words=("play",)):
        self.script, self.items, self.words = script, items, list(words)


def locals_beside(count):
    """A turn of a loop of three names, beside so many other locals."""
    def run(turns):
        others = "".join(f"var int v{it} = 0; " for it in range(count))
        body = f"tx {{ {others}var int i = 0; while (i < {turns}) {{ i = i + 1; }} print i; }}\n"
        return Run("setup client 1\n" + body, turns)
    return run(1000), run(5000)


def classes_beside(count):
    """A call to an object of the last of so many classes."""
    def run(items):
        classes = "".join(f"free class C{it} {{ int n; {ADD}}} " for it in range(count))
        return Run(f"setup {classes}root a = new C{count - 1}();\nclient 1\n" + "tx { print a.add(1); }\n" * items, items)
    return run(200), run(600)


def roots_beside(count):
    """A call to the last of so many roots."""
    def run(items):
        roots = "".join(f"root r{it} = new Box();\n" for it in range(count))
        return Run(f"setup {BOX}\n{roots}client 1\n" + f"tx {{ print r{count - 1}.add(1); }}\n" * items, items)
    return run(200), run(600)


def members_beside(methods, fields):
    """A call to the last method of a class with so many, which reads and writes the last of so many fields."""
    def run(items):
        last = f"f{fields - 1}"
        members = "".join(f"int f{it}; " for it in range(fields))
        members += "".join(f"method int m{it}(int k) {{ this.{last} = this.{last} + k; return this.{last}; }} " for it in range(methods))
        calls = f"tx {{ print a.m{methods - 1}(1); }}\n" * items
        return Run(f"setup free class Wide {{ {members}}} root a = new Wide();\nclient 1\n{calls}", items)
    return run(200), run(600)


def made(objects):
    """Transactions that make so many objects behind the root `head`."""
    whole, rest = divmod(objects, MAKE)
    counts = [MAKE] * whole + [rest] * (rest > 0)
    return "".join(f"tx {{ var int i = 0; while (i < {it}) {{ head.grow(); i = i + 1; }} }}\n" for it in counts)


def upgrades_over(objects, few=2, many=6):
    """An upgrade of the class of so many objects, none of which is met behind it."""
    def run(upgrades):
        return Run(f"setup {NODE} root head = new Node();\nclient 1\n{made(objects)}" + UPGRADE * upgrades, upgrades)
    return run(few), run(many)


def invalid_beside(objects, few=100, many=300):
    """A transaction of a session with so many invalid objects: another client wrote them, and the session has taken no message."""
    parts = -(-objects // PART)
    heads = "".join(f"root h{it} = new Node();\n" for it in range(parts))
    grows, reads, writes = "", "", ""
    for it in range(parts):
        count = min(PART, objects - it * PART)
        grows += made(count).replace("head.", f"h{it}.")
        walk = f"tx {{ var Node x = h{it}.go(); var int i = 0; while (i < {count}) {{ x.%s; x = x.go(); i = i + 1; }} }}\n"
        reads += walk % "get()"
        writes += walk % "add(1)"
    pages = -(-(objects + parts + 1) // 12)
    steps = 2 * pages + 3 * parts + 20  # more than the walks take; what is left goes to transactions on `own`
    schedule = "s2 " * (40 * grows.count("tx ") + 40) + "\n" + "s1 " * steps + "\n" + "s3 " * steps + "\n"

    def run(items):
        owned = "tx { print own.add(1); }\n" * (items + parts + 20)
        script = f"setup {NODE}root own = new Node();\n{heads}client 1\n{reads}{owned}client 2\n{grows}client 3\n{writes}schedule\n{schedule}"
        return Run(script, items, ["play", "--cache", "4096", "--mob", "16777216"])
    return run(few), run(many)


def window_of(few, many):
    """A transaction of two clients by turns, where one request of two isn't the latest: behind `few` others, up to `many`."""
    def run(items):
        half = items // 2
        roots = "".join(f"root r{it} = new Box();\n" for it in range(24))
        clients = "".join(f"client {c}\n" + f"tx {{ print r{12 * (c - 1)}.add(1); }}\n" * half for c in (1, 2))
        return Run(f"setup {BOX}\n{roots}{clients}schedule\ns1 s1 s1 s2 s2 s2\n" + "s1 s2 s2 s1\n" * half, items)
    return run(few), run(many)


def clients_on_a_page(clients, few=20, many=60):
    """An item of one of so many clients, whose twelve objects lie on one page."""
    def run(items):
        roots = "".join(f"root r{it} = new Box();\n" for it in range(12))
        texts = "".join(f"client {c + 1}\n" + f"tx {{ print r{c % 12}.add(1); }}\n" * items for c in range(clients))
        return Run(f"setup {BOX}\n{roots}{texts}", items * clients)
    return run(few), run(many)


def bank_of(number):
    """An item of the bank of `gen N`, of all."""
    return None, Run(bank.script(number, 1), 100 * number)


CASES = {
    "locals 10": lambda: locals_beside(10),
    "locals 1000": lambda: locals_beside(1000),
    "classes 1": lambda: classes_beside(1),
    "classes 250": lambda: classes_beside(250),
    "roots 16": lambda: roots_beside(16),
    "roots 256": lambda: roots_beside(256),
    "members 1 1": lambda: members_beside(1, 1),
    "members 63 31": lambda: members_beside(63, 31),
    "upgrades 1000": lambda: upgrades_over(1_000),
    "upgrades 10000": lambda: upgrades_over(10_000),
    "invalid 49": lambda: invalid_beside(49),
    "invalid 490": lambda: invalid_beside(490),
    "invalid 4900": lambda: invalid_beside(4_900),
    "window 100": lambda: window_of(100, 300),
    "window 1024": lambda: window_of(2_000, 4_000),
    "clients 4": lambda: clients_on_a_page(4),
    "clients 16": lambda: clients_on_a_page(16),
    "clients 64": lambda: clients_on_a_page(64, 10, 30),
    "bank 10": lambda: bank_of(10),
    "bank 30": lambda: bank_of(30),
    "bank 100": lambda: bank_of(100),
}
LARGEST = {
    "upgrades 100000": lambda: upgrades_over(100_000, 1, 2),
    "invalid 49000": lambda: invalid_beside(49_000),
    "bank 1000": lambda: bank_of(1_000),
}


def counted(program, run):
    """The instructions of a run whose items have all ended."""
    words = ["valgrind", "--tool=cachegrind", "--cache-sim=no", "--cachegrind-out-file=/dev/null", "--trace-children=yes", program, *run.words]
    ran = subprocess.run(words, input=run.script.encode(), stdout=subprocess.PIPE, stderr=subprocess.PIPE)
    told = re.findall(r"I\s+refs:\s+([\d,]+)", ran.stderr.decode())
    if ran.returncode not in (0, 1) or not told:
        sys.exit(f"status {ran.returncode}: {ran.stdout.decode()[:300]} {ran.stderr.decode()[-300:]}")
    return max(int(it.replace(",", "")) for it in told)


def main():
    program, names = sys.argv[1], sys.argv[2:] or list(CASES)
    for name in names:
        short, long = (CASES | LARGEST)[name]()
        instructions = counted(program, long)
        if short is None:
            print(f"{name}: {instructions / long.items:,.0f} of all ({instructions:,})", flush=True)
            continue
        before = counted(program, short)
        print(f"{name}: {(instructions - before) / (long.items - short.items):,.0f} ({before:,}, {instructions:,})", flush=True)


if __name__ == "__main__":
    main()
