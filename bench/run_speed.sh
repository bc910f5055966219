#!/usr/bin/env bash
# How many items a second `run` performs, with a thread for each of 1, 2 and 4 clients: each client moves money between 16
# accounts of its own, which lie at a repository of its own or all at one. In memory, and in the files of a folder. For
# comparison the same by `play`, which takes turns on one thread, and by `check`, which reads the script alone. A figure is
# the median of some runs, from the bytes of the script to those of the report. It needs the proved program
# (KILNTAUPE_WAIT=1 ./kilntaupe builds it), or the one that PROGRAM names, and Python 3.
#
#   bench/run_speed.sh [ITEMS [FOLDER [RUNS [memory | files]]]]
#
# ITEMS of each client, 5,000 where it isn't named; FOLDER is where the stores are made, else a new one in /tmp; RUNS of
# which a figure is the median, 5 where it isn't named. In memory or in files alone, where one of them is named.
set -eu
cd "$(dirname "$0")/.."
program=${PROGRAM:-crates/thor_shell/out/thor_shell}
[ -x "$program" ] || { echo "there is no $program: KILNTAUPE_WAIT=1 ./kilntaupe builds it" >&2; exit 1; }
room=$(mktemp -d "${2:-/tmp}/run_speed.XXXXXX")
trap 'rm -rf "$room"' EXIT
echo "$(nproc) processors, load $(cut -d ' ' -f 1 /proc/loadavg)"
python3 - "$program" "$room" "${1:-5000}" "${3:-5}" "${4:-both}" <<'END'
import os, random, shutil, subprocess, sys, time
program, room, items, runs = sys.argv[1], sys.argv[2], int(sys.argv[3]), int(sys.argv[4])
CLASS = ("free class Acct { int n; method int get() { return this.n; } method int add(int k) { this.n = this.n + k; return this.n; } "
         "method int move(Acct to, int k) { this.n = this.n - k; to.add(k); return k; } }\n")


def script(clients, repos):
    draw, text = random.Random(3), "setup\n" + CLASS
    for client in range(clients):
        for account in range(16):
            text += f"root c{client}a{account} = new Acct() at {client % repos};\n"
    for client in range(clients):
        text += f"client {client + 1}\n"
        for item in range(items):
            one, other = draw.sample(range(16), 2)
            text += f"tx {{ c{client}a{one}.move(c{client}a{other}, {item % 9 + 1}); }}\n"
    return text.encode()


def seconds(words, text, stored):
    times = []
    for _ in range(runs):
        folder = f"{room}/store"
        os.mkdir(folder)
        begun = time.monotonic()
        ran = subprocess.run([program, *words, *(["--store", folder] if stored else [])], input=text, stdout=subprocess.PIPE)
        times.append(time.monotonic() - begun)
        shutil.rmtree(folder)
        assert ran.returncode == 0, (words, ran.returncode)
    return sorted(times)[runs // 2]


for stored in {"memory": [False], "files": [True]}.get(sys.argv[5], [False, True]):
    for clients, repos in ((1, 1), (2, 1), (4, 1), (2, 2), (4, 4)):
        text = script(clients, repos)
        figures = []
        for command in ("check", "play", "run"):
            took = seconds([command, "--repos", f"{repos}"] + (["--tries", "100"] if command != "check" else []), text, stored)
            figures.append(f"{command} {clients * items / took:>9,.0f} a second ({took:.3f} s)")
        print(f"{'in files ' if stored else 'in memory'} {clients} clients on {repos}: " + ", ".join(figures))
END
