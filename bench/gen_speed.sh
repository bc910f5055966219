#!/usr/bin/env bash
# How long `gen 10`, `gen 100` and `gen 1000` take: 1,000, 10,000 and 100,000 items and twice as many events, from the word
# to the summary, and how much memory. `bench/profile.sh` tells where the work goes.
#
#   bench/gen_speed.sh [PROGRAM]
#
# Without a PROGRAM it needs the proved one (KILNTAUPE_WAIT=1 ./kilntaupe builds it).
set -eu
cd "$(dirname "$0")/.."
program=${1:-crates/thor_shell/out/thor_shell}
[ -x "$program" ] || { echo "there is no $program: KILNTAUPE_WAIT=1 ./kilntaupe builds it" >&2; exit 1; }
echo "$(nproc) processors, load $(cut -d ' ' -f 1 /proc/loadavg)"
for n in 10 100 1000; do
    python3 - "$program" "$n" <<'END'
import resource, subprocess, sys, time
program, n = sys.argv[1], int(sys.argv[2])
begun = time.monotonic()
ran = subprocess.run([program, "gen", f"{n}"], stdin=subprocess.DEVNULL, stdout=subprocess.PIPE)
seconds, used = time.monotonic() - begun, resource.getrusage(resource.RUSAGE_CHILDREN)
ends, total = ran.stdout.decode().splitlines()
assert ran.returncode in (0, 1) and ends.startswith(f"items {100 * n} done ") and total == "sum 0", ran
print(f"gen {n}: {seconds:.2f} s, {used.ru_utime + used.ru_stime:.2f} s of a processor, {100 * n / seconds:,.0f} items a second, "
      f"{used.ru_maxrss // 1024} MB; {ends}")
END
done
