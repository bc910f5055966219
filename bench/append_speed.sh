#!/usr/bin/env bash
# Appends records with bodies of 200 bytes to a log: to a file, beside a C program that makes the same writes and
# syncs, and to memory, for logs of rising length.
# append_speed.sh [RECORDS] [FOLDER ON THE DISK TO BE MEASURED]
set -eu
records=${1:-10000}
place=${2:-/tmp}
source "$(dirname "$0")/measuring.sh"
begin append_speed thor_value disk_trait log_frame
mkdir -p "$work/crates/append_speed/proofs/add"
cat > "$work/crates/append_speed/src/main.rt" <<'RT'
#![tactic(auto)]

ghost use Rattle.disk_trait.specs.Disks.{IsSettled};

use disk_trait::{Disk, FileParts, MemParts, Parts, TickClock};
use log_frame::{Log, LogFault};
use std::alloc::Global;
use std::env;
use std::test::Fail;

/// Formats disk 0 and adds so many records.
fn add<P: Parts>(alloc: Global, parts: &mut P, count: u64) -> Result<(), LogFault>
    requires { IsSettled (P.disks parts.old) 0 }
{
    let mut log = Log::format(alloc, parts, Disk::Log0, 1, &[])?;
    for _ in 0..count {
        log.append(parts, &[7; 200])?;
    }
    Ok(())
}

fn main(rt: HostRuntime) -> Result<(), Fail> {
    let alloc = rt.alloc();
    let words = env::args(&rt)?.collect::<Vec<String>>(alloc)?;
    if let [_, place, count] = words.as_slice() {
        let count = count.as_str().parse::<u64>()?;
        if place.as_str() == "memory" {
            let mut parts = MemParts::new(
                Vec::new(alloc),
                Vec::new(alloc),
                Vec::new(alloc),
                Vec::new(alloc),
                TickClock::new(1),
            );
            add(alloc, &mut parts, count)?;
        } else {
            let log1 = format!(in alloc; "{place}.log1")?;
            let pages = format!(in alloc; "{place}.pages")?;
            let mut parts = FileParts::open(&rt, place, &log1, &pages, TickClock::new(1));
            add(alloc, &mut parts, count)?;
        }
    }
    Ok(())
}
RT
cat > "$work/crates/append_speed/proofs/add/Invariants.antt" <<'ANTT'
use Rattle.disk_trait.specs.Disks.{WhereTold, IsSettled}
use Rattle.log_frame.specs.Log.{Agrees}
use Rattle.append_speed.proofs.add.Given as goal

-- what an append asks for
abbrev pub invariant-loop : goal.invariant-loop
invariant-loop g l = record {
  settled : IsSettled (g.P.Parts.disks l.parts) l.log.disk;
  agrees : WhereTold (g.P.Parts.disks l.parts) l.log.disk (λ bytes. Agrees l.log bytes);
}
ANTT
build
program=$work/crates/append_speed/out/append_speed
cc -O2 -o "$work/plain" "$here/append_speed.c"

# Runs a command, and prints the seconds that have passed and those of the processor.
seconds() { /usr/bin/time -f "%e %U %S" "$@" 2>&1 > /dev/null | awk '{ print $1, $2 + $3 }'; }

echo "load: $(cut -d ' ' -f 1-3 /proc/loadavg)"
# Many short rounds, in which the two take turns, so that what else the machine does meets both.
for ((round = 0; round < 20; round++)); do
    rm -f "$work"/log.*
    seconds "$work/plain" "$work/log.plain" $((records / 20)) >> "$work/times.plain"
    seconds "$program" "$work/log.ours" $((records / 20)) >> "$work/times.ours"
    cmp "$work/log.plain" "$work/log.ours"
done
paste -d ' ' "$work/times.plain" "$work/times.ours" | awk '{ print $3 / $1 }' | sort -n | sed -n 10p > "$work/median"
paste -d ' ' "$work/times.plain" "$work/times.ours" | awk -v n="$records" -v median="$(cat "$work/median")" '
    { plain += $1; plain_busy += $2; ours += $3; ours_busy += $4 }
    END {
        printf "file: %d appends, plain C %.2f s (%.2f s of the processor), log_frame %.2f s (%.2f s)\n", n, plain, plain_busy, ours, ours_busy
        printf "file: %.2f times its time in all, %.2f times in the median of 20 rounds\n", ours / plain, median
    }'
for many in 100000 200000 400000 800000; do
    read -r passed busy <<< "$(seconds "$program" memory "$many")"
    awk -v n="$many" -v t="$passed" -v b="$busy" \
        'BEGIN { printf "memory: %d appends in %.2f s (%.2f s of the processor), %.0f a second, %.2f microseconds each\n", n, t, b, n / t, t / n * 1e6 }'
done
