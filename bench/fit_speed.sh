#!/usr/bin/env bash
# How long a store with 15,000 and with 60,000 objects takes to be opened (half of them are parts; all is read, and whether
# it fits its schemas is checked), and how many accounts a second are brought up and committed behind an upgrade that
# renames a field and adds one: the time of a run with such upgrades, less that of the same run without them.
#
#   bench/fit_speed.sh [PROGRAM]
#
# Without a PROGRAM it needs the proved one (KILNTAUPE_WAIT=1 ./kilntaupe builds it).
set -eu
cd "$(dirname "$0")/.."
program=${1:-crates/thor_shell/out/thor_shell}
[ -x "$program" ] || { echo "there is no $program: KILNTAUPE_WAIT=1 ./kilntaupe builds it" >&2; exit 1; }
echo "$(nproc) processors, load $(cut -d ' ' -f 1 /proc/loadavg)"
python3 - "$program" <<'END'
import resource, subprocess, sys, tempfile, time

METHODS = ("method int get() { return this.%s; } method Acct go() { return this.next; } "
           "method int fill(int k, Acct x) { this.s = new Slip(); this.s.set(k); this.%s = k; this.next = x; return k; } "
           "method int add(int k) { var Acct x = new Acct(); x.fill(k, this.next); this.next = x; return k; }")
SETUP = ("setup\nfree class Acct { Slip s; Acct next; int n; " + METHODS % ("n", "n") + " }\n"
         "part class Slip { int v; method int set(int k) { this.v = k; return k; } method int get() { return this.v; } }\n"
         "root a = new Acct() at 0;\nclient 1\n")
MAKES = "tx { var int i = 0; while (i < 32) { a.add(i); i = i + 1; } }\n"


def run(words, script):
    """The seconds that the program took, and those of the processor."""
    before, begun = resource.getrusage(resource.RUSAGE_CHILDREN), time.monotonic()
    ran = subprocess.run([sys.argv[1], *words], input=script.encode(), stdout=subprocess.PIPE)
    seconds, used = time.monotonic() - begun, resource.getrusage(resource.RUSAGE_CHILDREN)
    assert ran.returncode == 0, ran.stdout[-200:]
    return seconds, used.ru_utime + used.ru_stime - before.ru_utime - before.ru_stime


for objects in (15_000, 60_000):
    with tempfile.TemporaryDirectory() as folder:
        run(["play", "--store", folder], SETUP + MAKES * (objects // 64) + "tx { print a.get(); }\nschedule\nk0\n")
        seconds, busy = sorted(run(["check", "--store", folder], "client 1 tx { print a.get(); }\n") for _ in range(3))[1]
        print(f"{objects:,} objects: opened and checked in {seconds:.2f} s, {busy:.2f} s of the processor (median of 3)")

# 256 accounts, each of which 16 upgrades rename a field of, forth and back, and add one to or take it away.
accounts = "".join(f"root r{i} = new Acct() at 0;\n" for i in range(255))
setup = SETUP.replace("client 1\n", accounts + "client 1\n")
reads = "tx { print a.get(); }\n" + "".join(f"tx {{ print r{i}.get(); }}\n" for i in range(255))
forth = "upgrade { class Acct { Slip s = old.s; Acct next = old.next; int sum = old.n; int fee = 0; " + METHODS % ("sum", "sum") + " } }\n"
back = "upgrade { class Acct { Slip s = old.s; Acct next = old.next; int n = old.sum + old.fee; " + METHODS % ("n", "n") + " } }\n"
plain = min(run(["play"], setup + reads * 16)[1] for _ in range(3))
raised = min(run(["play"], setup + (forth + reads + back + reads) * 8)[1] for _ in range(3))
print(f"256 accounts read behind each of 16 upgrades: {raised:.2f} s of the processor, without upgrades {plain:.2f} s: "
      f"{16 * 256 / max(raised - plain, 1e-3):,.0f} brought up and committed a second")
print(f"{resource.getrusage(resource.RUSAGE_CHILDREN).ru_maxrss // 1024} MB at most")
END
