#!/usr/bin/env bash
# How many items a second one client performs: transfers between 16 accounts, and now and then the sum of all, as a script of
# 1,000, 10,000 and 100,000 items, from the bytes of the script to those of the report. And how many steps a second a loop
# takes. It needs the proved program (KILNTAUPE_WAIT=1 ./kilntaupe builds it), or the one
# that PROGRAM names, and Python 3.
#
#   bench/bank_speed.sh [PEER..]
#
# A PEER is a command that performs such items itself and prints its own figures; it is run once behind the others.
set -eu
cd "$(dirname "$0")/.."
program=${PROGRAM:-crates/thor_shell/out/thor_shell}
[ -x "$program" ] || { echo "there is no $program: KILNTAUPE_WAIT=1 ./kilntaupe builds it" >&2; exit 1; }
room=$(mktemp -d)
trap 'rm -rf "$room"' EXIT
echo "$(nproc) processors, load $(cut -d ' ' -f 1 /proc/loadavg)"
for items in 1000 10000 100000; do
    python3 - "$items" > "$room/script" <<'END'
import random, sys
draw = random.Random(3)
print("setup")
print("free class Acct { int n; method int get() { return this.n; } method int add(int k) { this.n = this.n + k; return this.n; } "
      "method int move(Acct to, int k) { this.n = this.n - k; to.add(k); return k; } }")
for a in range(16):
    print(f"root a{a} = new Acct() at 0;")
print("client 1")
for item in range(int(sys.argv[1])):
    f, t = draw.randrange(16), draw.randrange(16)
    every = " + ".join(f"a{a}.get()" for a in range(16))
    print(f"tx {{ a{f}.move(a{t}, {item % 9 + 1}); }}" if f != t else f"tx {{ print {every}; }}")
END
    python3 - "$program" "$room/script" "$items" <<'END'
import resource, subprocess, sys, time
program, script, items = sys.argv[1], sys.argv[2], int(sys.argv[3])
times = []
for _ in range(5):
    begun = time.monotonic()
    report = subprocess.run([program, "play"], stdin=open(script), stdout=subprocess.PIPE, check=True).stdout
    times.append(time.monotonic() - begun)
assert report.endswith(b"end %d\n" % items) and report.count(b" Done ") == items
sums = {line.split(b" : ")[1] for line in report.splitlines() if b" : " in line and not line.endswith(b" :")}
assert sums <= {b"0"}, sums
seconds = sorted(times)[2]
memory = resource.getrusage(resource.RUSAGE_CHILDREN).ru_maxrss // 1024
print(f"{items} items: {seconds:.3f} s, {items / seconds:,.0f} a second, {seconds / items * 1e6:.1f} microseconds each, {memory} MB")
END
done
printf 'setup client 1\n' > "$room/script"
for _ in $(seq 20); do printf 'tx { var int i = 0; while (i < 12499) { i = i + 1; } print i; }\n' >> "$room/script"; done
python3 - "$program" "$room/script" <<'END'
import subprocess, sys, time
program, script = sys.argv[1:]
times = []
for _ in range(5):
    begun = time.monotonic()
    report = subprocess.run([program, "play"], stdin=open(script), stdout=subprocess.PIPE, check=True).stdout
    times.append(time.monotonic() - begun)
assert report.count(b" : 12499\n") == 40
print(f"a loop: {20 * 100000 / sorted(times)[2]:,.0f} steps a second")
END
for peer in "$@"; do $peer; done
