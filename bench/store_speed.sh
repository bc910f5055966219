#!/usr/bin/env bash
# The store of objects. How many lists of two 16-byte objects it takes into its buffer a second, and how many objects it gives,
# where it holds 1,000 and 60,000; and how many pages it flushes a second, to memory and to a file, beside a C program that makes
# the same writes and syncs.
# store_speed.sh [CALLS] [FLUSHES] [FOLDER ON THE DISK TO BE MEASURED]
set -eu
calls=${1:-1000000}
flushes=${2:-4000}
place=${3:-/tmp}
source "$(dirname "$0")/measuring.sh"
begin store_speed thor_value object_codec page_format disk_trait page_store mob_buffer mob_flusher
mkdir -p "$work/crates/store_speed/proofs/apply" "$work/crates/store_speed/proofs/apply_all" \
    "$work/crates/store_speed/proofs/get_all" "$work/crates/store_speed/proofs/flush_all"
cat > "$work/crates/store_speed/src/main.rt" <<'RT'
#![tactic(auto)]

ghost use Rattle.std.specs.Prelude.{◌≡◌, ◌<◌, IfOk};
ghost use Rattle.thor_value.specs.Spelling.{OrefFits};
ghost use Rattle.disk_trait.specs.Disks.{IsSettled, WhereTold};
ghost use Rattle.page_store.specs.Store.{Agrees};
ghost use Rattle.mob_buffer.specs.Buffer.{AreOf, IsOf};

use disk_trait::{FileParts, MemParts, Parts, TickClock};
use mob_buffer::Mob;
use mob_flusher::{Flushed, ObjectStore};
use page_format::Sides;
use page_store::PageStore;
use std::alloc::Global;
use std::env;
use std::test::Fail;
use thor_value::{NoMemory, Obj, Oref, Sequence, Value, Writes};

fn name(page: u32, slot: u8) -> Oref
    requires { slot < 12 }
    ensures value { result ≡ record { repo = 0; page = page; slot = slot } }
    ensures fits { OrefFits result }
{
    Oref {
        repo: 0,
        page,
        slot,
    }
}

/// A write of an object of one number.
fn write(alloc: Global, page: u32, slot: u8, number: i64) -> Result<(Oref, Obj), NoMemory>
    requires { slot < 12 }
    ensures { IfOk result (IsOf 0) }
{
    let mut fields = Sequence::new(alloc);
    fields.push(Value::Int(number))?;
    let object = Obj {
        class: 0,
        ver: 0,
        fields,
    };
    Ok((name(page, slot), object))
}

/// Writes of the objects in slots 0 and 6 of a page.
fn pair(alloc: Global, page: u32) -> Result<Writes, NoMemory>
    ensures { IfOk result (AreOf 0) }
{
    let first = write(alloc, page, 0, 7)?;
    let second = write(alloc, page, 6, 8)?;
    let mut writes = Writes::new(alloc);
    writes.push(first)?;
    writes.push(second)?;
    Ok(writes)
}

/// A write of the object in slot 0 of a page.
fn single(alloc: Global, page: u32) -> Result<Writes, NoMemory>
    ensures { IfOk result (AreOf 0) }
{
    let first = write(alloc, page, 0, 7)?;
    let mut writes = Writes::new(alloc);
    writes.push(first)?;
    Ok(writes)
}

/// Puts writes into a store.
fn apply(store: &mut ObjectStore, writes: &Writes) -> Result<(), Fail>
    requires held { AreOf 0 store.old.mob.objects }
    requires written { AreOf 0 writes.now }
    ensures { AreOf 0 store.new.mob.objects }
{
    Ok(store.apply(writes)?)
}

/// So many lists of two writes, over this many pages again and again.
fn apply_all(alloc: Global, store: &mut ObjectStore, pages: u32, count: u32) -> Result<(), Fail>
    requires { AreOf 0 store.old.mob.objects }
    ensures { AreOf 0 store.new.mob.objects }
{
    for number in 0..count {
        let writes = pair(alloc, number % pages.max(1))?;
        apply(store, &writes)?;
    }
    Ok(())
}

/// One write to each of so many pages.
fn fill(alloc: Global, store: &mut ObjectStore, pages: u32) -> Result<(), Fail>
    requires { AreOf 0 store.old.mob.objects }
    ensures { AreOf 0 store.new.mob.objects }
{
    for page in 0..pages {
        let writes = single(alloc, page)?;
        apply(store, &writes)?;
    }
    Ok(())
}

/// So many objects, each of which the buffer has.
fn get_all<P: Parts>(
    parts: &mut P,
    store: &mut ObjectStore,
    pages: u32,
    count: u32,
) -> Result<(), Fail>
    requires { WhereTold (P.disks parts.old) 2 (Agrees store.old.pages) }
{
    for number in 0..count {
        if store.get(parts, name(number % pages.max(1), 0))?.is_none() {
            return Err("an object".into());
        }
    }
    Ok(())
}

/// So many pages flushed and put in use.
fn flush_all<P: Parts>(parts: &mut P, store: &mut ObjectStore, count: u32) -> Result<(), Fail>
    requires settled { IsSettled (P.disks parts.old) 2 }
    requires agrees { WhereTold (P.disks parts.old) 2 (Agrees store.old.pages) }
{
    for _ in 0..count {
        if let Flushed::Installed { page, side } = store.flush_one(parts)? {
            store.settle(page, side);
        }
    }
    Ok(())
}

/// A store without objects.
fn blank(alloc: Global) -> Result<ObjectStore, NoMemory>
    ensures objects { IfOk result (λ store. AreOf 0 store.mob.objects) }
    ensures agrees { IfOk result (λ store. (disk : List ℕ) → Agrees store.pages disk) }
{
    let pages = PageStore::new(alloc, &Sides::new(alloc))?;
    Ok(ObjectStore::new(alloc, pages, Mob::new(alloc, u32::MAX)?))
}

/// Fills a store, and makes the calls of a kind.
fn work<P: Parts>(
    alloc: Global,
    parts: &mut P,
    kind: &str,
    held: u32,
    count: u32,
) -> Result<(), Fail>
    requires { IsSettled (P.disks parts.old) 2 }
{
    let mut store = blank(alloc)?;
    if kind == "flush" {
        fill(alloc, &mut store, held)?;
        return flush_all(parts, &mut store, count);
    }
    let pages = held / 2;
    apply_all(alloc, &mut store, pages, pages)?;
    if kind == "apply" {
        return apply_all(alloc, &mut store, pages, count);
    }
    get_all(parts, &mut store, pages, count)
}

fn main(rt: HostRuntime) -> Result<(), Fail> {
    let alloc = rt.alloc();
    let words = env::args(&rt)?.collect::<Vec<String>>(alloc)?;
    if let [_, kind, place, held, count] = words.as_slice() {
        let held = held.as_str().parse::<u32>()?;
        let count = count.as_str().parse::<u32>()?;
        if place.as_str() == "memory" {
            let mut parts = MemParts::new(
                Vec::new(alloc),
                Vec::new(alloc),
                Vec::new(alloc),
                Vec::new(alloc),
                TickClock::new(1),
            );
            work(alloc, &mut parts, kind.as_str(), held, count)?;
        } else {
            let log0 = format!(in alloc; "{place}.log0")?;
            let log1 = format!(in alloc; "{place}.log1")?;
            let mut parts = FileParts::open(&rt, &log0, &log1, place, TickClock::new(1));
            work(alloc, &mut parts, kind.as_str(), held, count)?;
        }
    }
    Ok(())
}
RT
mkdir -p "$work/crates/store_speed/proofs/fill"
cat > "$work/crates/store_speed/proofs/Lib.antt" <<'ANTT'
pub mod Buffers
ANTT
cat > "$work/crates/store_speed/proofs/Buffers.antt" <<'ANTT'
-- What a buffer of repository 0 holds behind writes.
use Rattle.std.proofs.Common.{◌≡◌, List, Result, Ok, Err, OnOk, OnErr, sym, subst}
use Rattle.thor_value.specs.declared.names.Oref.{Oref}
use Rattle.thor_value.specs.declared.values.Obj.{Obj}
use Rattle.mob_buffer.specs.Buffer.{AreOf}
use Rattle.mob_buffer.proofs.Writes.{of_all}
use Rattle.mob_flusher.specs.Map.{Kept, with_writes}

pub still_ours : {T E : Type 0} (r : Result T E) (old new : Kept) (writes : List (Oref × Obj)) → AreOf 0 old.mob.objects → AreOf 0 writes → OnOk r (new ≡ with_writes old writes) → OnErr r (new ≡ old) → AreOf 0 new.mob.objects
still_ours (Ok done) old new writes held all ok err = subst (λ (k : Kept). AreOf 0 k.mob.objects) (sym ok) (of_all 0 old.mob.objects writes held all)
still_ours (Err refused) old new writes held all ok err = subst (λ (k : Kept). AreOf 0 k.mob.objects) (sym err) held
ANTT
cat > "$work/crates/store_speed/proofs/apply/Answers.antt" <<'ANTT'
use Rattle.store_speed.proofs.Buffers.{still_ours}
use Rattle.store_speed.proofs.apply.Goals as goal

pub apply-requires : goal.apply-requires
apply-requires c = record { one_repo = (0, c.requires.held, c.requires.written) }

pub returns : goal.returns
returns c = still_ours c.apply.result c.args.store.now c.apply.new.self c.args.writes.now c.requires.held c.requires.written c.apply.ensures.ok c.apply.ensures.err
ANTT
for one in apply_all fill; do
    cat > "$work/crates/store_speed/proofs/$one/Invariants.antt" <<ANTT
use Rattle.mob_buffer.specs.Buffer.{AreOf}
use Rattle.store_speed.proofs.$one.Given as goal

-- the buffer's objects are of one repository
abbrev pub invariant-loop : goal.invariant-loop
invariant-loop l = AreOf 0 l.store.mob.objects
ANTT
done
cat > "$work/crates/store_speed/proofs/get_all/Invariants.antt" <<'ANTT'
use Rattle.disk_trait.specs.Disks.{WhereTold}
use Rattle.page_store.specs.Store.{Agrees}
use Rattle.store_speed.proofs.get_all.Given as goal

-- what a call asks for
abbrev pub invariant-loop : goal.invariant-loop
invariant-loop g l = WhereTold (g.P.Parts.disks l.parts) 2 (Agrees l.store.pages)
ANTT
cat > "$work/crates/store_speed/proofs/flush_all/Invariants.antt" <<'ANTT'
use Rattle.disk_trait.specs.Disks.{WhereTold, IsSettled}
use Rattle.page_store.specs.Store.{Agrees}
use Rattle.store_speed.proofs.flush_all.Given as goal

-- what a flush asks for
abbrev pub invariant-loop : goal.invariant-loop
invariant-loop g l = record {
  settled : IsSettled (g.P.Parts.disks l.parts) 2;
  agrees : WhereTold (g.P.Parts.disks l.parts) 2 (Agrees l.store.pages);
}
ANTT
build
program=$work/crates/store_speed/out/store_speed
cc -O2 -o "$work/plain" "$here/store_speed.c"

# Runs a command, and prints the seconds that have passed and those of the processor.
seconds() { /usr/bin/time -f "%e %U %S" "$@" 2>&1 > /dev/null | awk '{ print $1, $2 + $3 }'; }

echo "load: $(cut -d ' ' -f 1-3 /proc/loadavg)"
for kind in apply get; do
    for held in 1000 60000; do
        # The store is filled before the first call: what that takes is taken off.
        read -r _ before <<< "$(seconds "$program" "$kind" memory "$held" 0)"
        read -r _ all <<< "$(seconds "$program" "$kind" memory "$held" "$calls")"
        awk -v k="$kind" -v h="$held" -v n="$calls" -v t="$all" -v b="$before" \
            'BEGIN { t -= b; printf "%s, %d objects held: %d calls in %.2f s of the processor, %.0f a second\n", k, h, n, t, n / t }'
    done
done
for held in 1000 60000; do
    read -r _ before <<< "$(seconds "$program" flush memory "$held" 0)"
    read -r _ all <<< "$(seconds "$program" flush memory "$held" 1000)"
    awk -v h="$held" -v t="$all" -v b="$before" \
        'BEGIN { t -= b; printf "flush to memory, %d objects held: 1000 pages in %.3f s of the processor, %.0f a second\n", h, t, 1000 / t }'
done
# Many short rounds, in which the two take turns, so that what else the machine does meets both.
for ((round = 0; round < 20; round++)); do
    rm -f "$work"/pages.*
    seconds "$work/plain" "$work/pages.plain" $((flushes / 20)) >> "$work/times.plain"
    seconds "$program" flush "$work/pages.ours" $((flushes / 20)) $((flushes / 20)) >> "$work/times.ours"
    cmp "$work/pages.plain" "$work/pages.ours"
done
paste -d ' ' "$work/times.plain" "$work/times.ours" | awk '{ print $3 / $1 }' | sort -n | sed -n 10p > "$work/median"
paste -d ' ' "$work/times.plain" "$work/times.ours" | awk -v n="$flushes" -v median="$(cat "$work/median")" '
    { plain += $1; plain_busy += $2; ours += $3; ours_busy += $4 }
    END {
        printf "file: %d flushes, plain C %.2f s (%.2f s of the processor), ours %.2f s (%.2f s)\n", n, plain, plain_busy, ours, ours_busy
        printf "file: %.2f times its time in all, %.2f times in the median of 20 rounds\n", ours / plain, median
    }'
