#!/usr/bin/env bash
# Validates requests that read and write 10 objects against a full window, of 1,024 transactions with 10 objects each, and
# prints how many a second. No name of theirs meets, so all are accepted and the whole window is gone through.
#   above      the request is above all, which are decided: no name is compared
#   below      it is below all: its names are compared with those of each
#   undecided  it is above all, which are undecided but for one: the same
# The first two behind ever more commits, which must not make them slower.
# queue_speed.sh [REQUESTS]
set -eu
requests=${1:-20000}
source "$(dirname "$0")/measuring.sh"
begin queue_speed $(below validation_queue)
cat > "$work/crates/queue_speed/src/main.rt" <<'RT'
#![tactic(auto)]

ghost use Rattle.std.specs.Map.{keys_of};
ghost use Rattle.validation_queue.specs.Names.{IsInOrder};

use std::alloc::Global;
use std::env;
use std::test::Fail;
use thor_value::{Obj, Oref, Orefs, Sequence, Ts, Writes};
use validation_queue::{Queue, is_in_order};

/// The time of the first transaction in the window, and what lies between two of them.
const STEP: u64 = 1 << 20;

fn ts(time: u64) -> Ts {
    Ts {
        time,
        repo: 0,
        life: 1,
    }
}

/// The names of 10 objects of a page.
fn names(alloc: Global, page: u32) -> Result<Orefs, Fail> {
    let mut names = Sequence::new(alloc);
    for slot in 0..10 {
        names.push(Oref {
            repo: 0,
            page,
            slot,
        })?;
    }
    Ok(names)
}

/// Some objects with these names.
fn written(alloc: Global, names: &Orefs) -> Result<Writes, Fail> {
    let mut writes = Sequence::new(alloc);
    for name in names.as_slice() {
        let object = Obj {
            class: 0,
            ver: 0,
            fields: Sequence::new(alloc),
        };
        writes.push((*name, object))?;
    }
    Ok(writes)
}

/// A transaction that reads and writes the 10 objects of a page comes into the window.
fn enter(
    alloc: Global,
    queue: &mut Queue,
    tx: Ts,
    page: u32,
    decided: bool,
) -> Result<(), Fail> {
    let ros = names(alloc, page)?;
    let writes = written(alloc, &ros)?;
    if !is_in_order(&ros, &writes) || queue.has(tx) {
        return Err(Fail::new("no request"));
    }
    if queue.validate(tx, false, &ros, &writes).is_err() {
        return Err(Fail::new("not accepted"));
    }
    queue.add(tx, false, &ros, &writes, decided)?;
    Ok(())
}

/// So many transactions come in one behind the other. Of each 1,024 the first is decided, the others where that is said.
fn fill(alloc: Global, queue: &mut Queue, count: u32, decided: bool) -> Result<(), Fail> {
    for page in 0..count {
        enter(
            alloc,
            queue,
            ts(STEP + STEP * u64::from(page)),
            page,
            decided || page % 1_024 == 0,
        )?;
    }
    Ok(())
}

/// So many requests, from a time on, are accepted.
fn validate(
    queue: &Queue,
    ros: &Orefs,
    writes: &Writes,
    from: u64,
    count: u64,
) -> Result<(), Fail>
    requires { IsInOrder ros.now (keys_of writes.now) }
{
    for time in from..from.saturating_add(count) {
        if queue.validate(ts(time), false, ros, writes).is_err() {
            return Err(Fail::new("not accepted"));
        }
    }
    Ok(())
}

fn main(rt: HostRuntime) -> Result<(), Fail> {
    let alloc = rt.alloc();
    let words = env::args(&rt)?.collect::<Vec<String>>(alloc)?;
    if let [_, kind, commits, count] = words.as_slice() {
        let commits = commits.as_str().parse::<u32>()?;
        let count = count.as_str().parse::<u64>()?;
        let mut queue = Queue::new(alloc, ts(0))?;
        fill(alloc, &mut queue, commits, kind.as_str() != "undecided")?;
        let ros = names(alloc, u32::MAX)?;
        let writes = written(alloc, &ros)?;
        let from = if kind.as_str() == "below" {
            queue.threshold().time.saturating_add(1)
        } else {
            u64::MAX / 2
        };
        if is_in_order(&ros, &writes) {
            validate(&queue, &ros, &writes, from, count)?;
        }
    }
    Ok(())
}
RT
build

# The seconds of the processor that a run takes.
busy() { /usr/bin/time -f "%U %S" "$work/crates/queue_speed/out/queue_speed" "$@" 2>&1 > /dev/null | awk '{ print $1 + $2 }'; }

echo "load: $(cut -d ' ' -f 1-3 /proc/loadavg)"
for row in "above 1024" "above 10240" "above 102400" "below 1024" "below 10240" "below 102400" "undecided 1024"; do
    read -r kind commits <<< "$row"
    # The transactions come in before the first request: what that takes is taken off.
    before=$(busy "$kind" "$commits" 0)
    all=$(busy "$kind" "$commits" "$requests")
    awk -v k="$kind" -v c="$commits" -v n="$requests" -v t="$all" -v b="$before" \
        'BEGIN { t -= b; printf "%s, behind %d transactions: %d requests in %.2f s of the processor, %.0f a second\n", k, c, n, t, n / t }'
done
