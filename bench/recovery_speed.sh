#!/usr/bin/env bash
# How long a store takes to open, whose log holds 1,000 to 100,000 single commits, beside a program that does nothing but read
# its files, and how much memory; and how long a checkpoint of 15,000 to 60,000 buffered objects takes. It needs the proved
# program, or the one that is named, and Python 3.
#
#   bench/recovery_speed.sh [PROGRAM]
set -eu
cd "$(dirname "$0")/.."
program=${1:-crates/thor_shell/out/thor_shell}
[ -x "$program" ] || { echo "there is no $program: KILNTAUPE_WAIT=1 ./kilntaupe builds it" >&2; exit 1; }
echo "$(nproc) processors, load $(cut -d ' ' -f 1 /proc/loadavg)"
python3 - "$program" <<'END'
import os, pathlib, shutil, subprocess, sys, tempfile, time

program = sys.argv[1]
CLASS = ("free class Box { int n; Box next; method int add(int k) { this.n = this.n + k; return this.n; } "
         "method int fill(int k) { while (0 < k) { this.next = new Box(); k = k - 1; } } }")
SETUP = f"setup {CLASS} root a = new Box();\n"


def play(store, script, *words):
    """Runs the script on the store: the seconds, those of the processor, and the most memory in megabytes."""
    with tempfile.TemporaryFile() as given:
        given.write(script.encode())
        given.seek(0)
        begun = time.monotonic()
        ran = subprocess.Popen([program, "play", "--store", store, *words], stdin=given, stdout=subprocess.DEVNULL)
        _, status, used = os.wait4(ran.pid, 0)
        ran.returncode = os.waitstatus_to_exitcode(status)
    assert ran.returncode in (0, 1), ran.returncode
    return time.monotonic() - begun, used.ru_utime + used.ru_stime, used.ru_maxrss // 1024


def median(times):
    return sorted(times)[len(times) // 2]


def opened(store):
    """The seconds of opening a copy of the store, those of the processor, the memory, and the seconds of reading its files."""
    ours, plain = [], []
    for _ in range(5):
        copy = store + ".copy"
        shutil.copytree(store, copy)
        begun = time.monotonic()
        read = sum(len(file.read_bytes()) for file in pathlib.Path(copy).iterdir() if file.is_file())
        plain.append(time.monotonic() - begun)
        ours.append(play(copy, "client 1\n"))
        shutil.rmtree(copy)
    seconds, busy, memory = (median(column) for column in zip(*ours))
    return seconds, busy, memory, median(plain), read


with tempfile.TemporaryDirectory(prefix="recovery-speed-") as room:
    for commits in (1000, 10000, 100000):
        store = f"{room}/{commits}"
        os.mkdir(store)
        play(store, SETUP + "client 1\n" + "tx { a.add(1); }\n" * commits)
        seconds, busy, memory, plain, read = opened(store)
        print(f"opened behind {commits} commits, {read / 1e6:.2f} MB: {seconds:.3f} s ({busy:.3f} s of the processor, "
              f"{1e6 * busy / commits:.1f} microseconds a commit), {memory} MB; read alone {plain:.4f} s")
    for objects in (15000, 30000, 60000):
        script = SETUP + "client 1\n" + "tx { a.fill(64); }\n" * (objects // 64)
        times = {}
        for count in (0, 20):
            took = []
            for run in range(3):
                store = f"{room}/objects-{objects}-{count}-{run}"
                os.mkdir(store)
                steps = "schedule " + "s1 " * (20 * (objects // 64) + 100) + "k0 " * count + "\n"
                took.append(play(store, script + steps, "--mob", "16777216")[1])
                held = min(os.path.getsize(f"{store}/0.log{disk}") for disk in (0, 1))
                assert count == 0 or held >= 16 * (objects // 64 * 64), held
            times[count] = median(took)
        print(f"a checkpoint of {objects} objects: {(times[20] - times[0]) / 20:.4f} s of the processor in the mean of 20")
END
