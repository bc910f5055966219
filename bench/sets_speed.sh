#!/usr/bin/env bash
# The cached and invalid sets of a repository with 64 sessions that each have 4,096 pages and 1,000 invalid objects: how many
# calls a second, behind ever more earlier writes, which must not make them slower.
#   touch      a write of one object, of a page that all sessions have, comes into the sets of all but the writer's
#   stale      a request that read 10 objects, of which none is in its session's set
#   stale_all  one that read as many objects as the set has
# The program takes the real time of each round of calls itself, behind the earlier writes. Rounds are short, so that most of
# them aren't interrupted by other work on the machine: the least and the median are told.
# sets_speed.sh [CALLS [MOST [ROUNDS]]]: calls in a round, the greatest number of earlier writes, rounds
set -eu
calls=${1:-20}
most=${2:-1000000}
rounds=${3:-500}
source "$(dirname "$0")/measuring.sh"
begin sets_speed $(below cached_sets)
cat > "$work/crates/sets_speed/src/main.rt" <<'RT'
#![tactic(auto)]

ghost use Rattle.validation_queue.specs.Names.{Rises};

use cached_sets::Sets;
use std::alloc::Global;
use std::env;
use std::test::Fail;
use std::time::Instant;
use thor_value::{NoMemory, Obj, Oref, Orefs, Sequence, Writes};
use validation_queue::is_in_order;

/// The sessions with copies, and how many pages and invalid objects each has.
const SESSIONS: u32 = 64;

const PAGES: u32 = 4096;

const INVALID: u32 = 1000;

fn name(page: u32, slot: u8) -> Oref {
    Oref {
        repo: 0,
        page,
        slot,
    }
}

/// A write of an empty object.
fn write(alloc: Global, page: u32) -> Result<Writes, NoMemory> {
    let mut writes = Sequence::new(alloc);
    let object = Obj {
        class: 0,
        ver: 0,
        fields: Sequence::new(alloc),
    };
    writes.push((name(page, 0), object))?;
    Ok(writes)
}

/// All sessions have all pages.
fn filled(alloc: Global) -> Result<Sets, NoMemory> {
    let mut sets = Sets::new(alloc)?;
    for session in 1..=SESSIONS {
        for page in 0..PAGES {
            sets.cache(session, page)?;
        }
    }
    Ok(sets)
}

/// So many writes from a place on, each of one of the objects that are invalid then, in turn.
fn touch(alloc: Global, sets: &mut Sets, from: u64, count: u64) -> Result<(), NoMemory> {
    for place in from..from.saturating_add(count) {
        let writes = write(alloc, (place % u64::from(INVALID)) as u32)?;
        sets.touch(0, &writes, place)?;
    }
    Ok(())
}

/// The names in this slot of so many pages.
fn names(alloc: Global, slot: u8, count: u32) -> Result<Orefs, NoMemory> {
    let mut names = Sequence::new(alloc);
    for page in 0..count {
        names.push(name(page, slot))?;
    }
    Ok(names)
}

/// So many requests that read these names, of the sessions in turn.
fn ask(sets: &Sets, read: &Orefs, from: u64, count: u64) -> Result<(), Fail>
    requires { Rises read.now }
{
    for asked in from..from.saturating_add(count) {
        let session = (asked % u64::from(SESSIONS)) as u32 + 1;
        if sets.stale(session, read, 0).is_some() {
            return Err("none is stale".into());
        }
    }
    Ok(())
}

/// So many calls of a kind.
fn call(
    alloc: Global,
    sets: &mut Sets,
    kind: &str,
    read: &Orefs,
    from: u64,
    count: u64,
) -> Result<(), Fail> {
    if kind == "touch" {
        touch(alloc, sets, from, count)?;
        return Ok(());
    }
    if !is_in_order(read, &Sequence::new(alloc)) {
        return Err("the names rise".into());
    }
    ask(sets, read, from, count)
}

/// So many rounds of calls, of which each prints its nanoseconds.
fn measure(
    rt: &HostRuntime,
    sets: &mut Sets,
    kind: &str,
    before: u64,
    count: u64,
    rounds: u64,
) -> Result<(), Fail> {
    let alloc = rt.alloc();
    let many = if kind == "stale" { 10 } else { INVALID };
    let read = names(alloc, 1, many)?;
    let mut from = before;
    for _round in 0..rounds {
        let start = Instant::now(rt)?;
        call(alloc, sets, kind, &read, from, count)?;
        from = from.saturating_add(count);
        println!(rt; "{}", start.elapsed(rt)?.as_nanos())?;
    }
    Ok(())
}

fn main(rt: HostRuntime) -> Result<(), Fail> {
    let alloc = rt.alloc();
    let words = env::args(&rt)?.collect::<Vec<String>>(alloc)?;
    if let [_, kind, before, count, rounds] = words.as_slice() {
        let before = before.as_str().parse::<u64>()?;
        let count = count.as_str().parse::<u64>()?;
        let rounds = rounds.as_str().parse::<u64>()?;
        let mut sets = filled(alloc)?;
        touch(alloc, &mut sets, 0, before)?;
        measure(&rt, &mut sets, kind.as_str(), before, count, rounds)?;
    }
    Ok(())
}
RT
build

echo "load: $(cut -d ' ' -f 1-3 /proc/loadavg)"
for row in "touch 1000" "touch 10000" "touch 100000" "touch 1000000" "stale 1000" "stale 100000" "stale 1000000" "stale_all 1000" "stale_all 100000" "stale_all 1000000"; do
    read -r kind writes <<< "$row"
    [ "$writes" -le "$most" ] || continue
    "$work/crates/sets_speed/out/sets_speed" "$kind" "$writes" "$calls" "$rounds" | sort -n \
        | awk -v k="$kind" -v w="$writes" -v n="$calls" \
            '{ t[NR] = $1 } END { m = t[int((NR + 1) / 2)]; printf "%s, behind %d writes: %.0f a second in the median, %.0f at most: %.2f and %.2f microseconds\n", k, w, n * 1e9 / m, n * 1e9 / t[1], m / n / 1e3, t[1] / n / 1e3 }'
done
