#!/usr/bin/env bash
# What an evaluation over a client's copies costs beside `eval` over a view that has the objects: a transfer between two objects at
# hand, begun and run to its end, and given up besides, and a loop of 12,499 turns. And what stops cost: a walk over 1,000 objects, each on a page
# of its own, that has them all at hand, and one that stops at each and goes on when its page is placed; what it costs to place the
# pages and let them go is counted alone and taken off. Instructions by callgrind, so that other work on the machine changes nothing.
# It needs valgrind. Without UNPROVED (see measuring.sh) it proves what it measures.
set -eu
source "$(dirname "$0")/measuring.sh"
command -v valgrind > /dev/null || { echo "there is no valgrind" >&2; exit 1; }
begin eval_speed $( (below paused_eval; below lang_bounded_eval; below method_parse) | awk '!seen[$0]++')
cat > "$work/crates/eval_speed/src/main.rt" <<'RT'
#![tactic(auto)]

use class_defs::{Block, Declarations, RootDeclaration, RootDeclarations, Schema};
use lang_bounded_eval::eval;
use method_eval::{Names, Ran, View};
use method_parse::{parse_block, parse_setup};
use object_codec::put_obj;
use page_format::Page;
use lang_small_steps::{ClassMethods, SharedBlock, class_methods};
use paused_eval::{Copies, GrantedNames, Paused};
use script_text::scan;
use std::alloc::Global;
use std::env;
use std::test::Fail;
use thor_value::{NoMemory, Obj, Oref, OrefMap, Sequence, Text, TryCopy, Value};

const SETUP: &[u8] = b"free class Acct { int n; method int get() { return this.n; } method int add(int k) { this.n = this.n + k; return this.n; } method int move(Acct to, int k) { if (this.n < k) { return 0; } this.n = this.n - k; to.add(k); return k; } } root a = new Acct(); root b = new Acct();";

const TRANSFER: &[u8] = b"{ a.move(b, 3); }";

const LOOP: &[u8] = b"{ var int i = 0; while (i < 12499) { i = i + 1; } print i; }";

const NODES: &[u8] = b"free class Node { int number; Node next; method int get() { return this.number; } method Node rest() { return this.next; } } root first = new Node();";

const WALK: &[u8] = b"{ var Node n = first; var int s = 0; while (n != null) { s = s + n.get(); n = n.rest(); } print s; }";

const NODES_COUNT: u32 = 1000;

fn name_of(slot: u8) -> Oref {
    Oref {
        repo: 0,
        page: 0,
        slot,
    }
}

fn object(alloc: Global) -> Result<Obj, NoMemory> {
    let mut fields = Sequence::new(alloc);
    fields.push(Value::Int(1_000_000))?;
    Ok(Obj {
        class: 0,
        ver: 0,
        fields,
    })
}

fn schema_of(alloc: Global, declared: Declarations) -> Result<Schema, NoMemory> {
    let mut roots = RootDeclarations::new(alloc);
    let mut slot: u8 = 0;
    for root in declared.roots.as_slice() {
        roots.push(RootDeclaration {
            name: root.name.copy()?,
            class: root.class.copy()?,
            at: root.at,
            oref: name_of(slot),
        })?;
        slot = slot.wrapping_add(1);
    }
    let mut upgraded = Sequence::new(alloc);
    upgraded.push(0)?;
    Ok(Schema {
        classes: declared.classes,
        upgraded,
        roots,
    })
}

fn by_eval(alloc: Global, schema: &Schema, tx: &Block, count: u32) -> Result<(), Fail> {
    let mut objects = OrefMap::new(alloc);
    objects.insert(name_of(0), object(alloc)?)?;
    objects.insert(name_of(1), object(alloc)?)?;
    let view = View {
        objects,
        names: Names::new(alloc),
        epoch: 0,
    };
    for _ in 0..count {
        match eval(alloc, tx, schema, &view)? {
            Ran::Done { .. } => {}
            _ => return Err(Fail::new("not done")),
        }
    }
    Ok(())
}

fn by_go(alloc: Global, schema: &Schema, tx: &Block, count: u32) -> Result<(), Fail> {
    let mut copies = Copies::new(alloc, 10)?;
    copies.write(name_of(0), object(alloc)?)?;
    copies.write(name_of(1), object(alloc)?)?;
    copies.settle();
    let mut names = GrantedNames::new(alloc);
    let text = SharedBlock::copy_of(alloc, tx)?;
    let methods = class_methods(alloc, &schema.classes)?;
    for _ in 0..count {
        let mut run = Paused::begin(alloc, &text)?;
        match run.go(schema, &methods, 0, &mut copies, &mut names)? {
            Ran::Done { .. } => {}
            _ => return Err(Fail::new("not done")),
        }
        copies.undo();
    }
    Ok(())
}

/// The page of one node, behind which the next page's comes.
fn node_page(alloc: Global, number: u32) -> Result<Text, Fail> {
    let mut fields = Sequence::new(alloc);
    fields.push(Value::Int(1))?;
    fields.push(if number + 1 < NODES_COUNT {
        Value::Ref(Oref {
            repo: 0,
            page: number + 1,
            slot: 0,
        })
    } else {
        Value::Null
    })?;
    let node = Obj {
        class: 0,
        ver: 0,
        fields,
    };
    let mut bytes = Text::new(alloc);
    put_obj(&node, &mut bytes)?;
    let mut page = Page::empty(alloc, number)?;
    match page.put(0, bytes.as_slice()) {
        Ok(()) => {}
        Err(_) => return Err(Fail::new("no room")),
    }
    Ok(page.spell()?)
}

fn place(copies: &mut Copies, pages: &Sequence<Text>, number: u32) -> Result<(), Fail> {
    match pages.get(number as usize) {
        Some(bytes) => {
            copies.place(number, 0, bytes.as_slice())?;
            Ok(())
        }
        None => Err(Fail::new("no page")),
    }
}

/// One walk, that has its pages placed where it stops.
fn walk(
    alloc: Global,
    schema: &Schema,
    methods: &ClassMethods,
    text: &SharedBlock,
    pages: &Sequence<Text>,
    copies: &mut Copies,
) -> Result<(), Fail> {
    let mut names = GrantedNames::new(alloc);
    let mut run = Paused::begin(alloc, text)?;
    for _ in 0..2 * NODES_COUNT {
        match run.go(schema, methods, 0, copies, &mut names)? {
            Ran::Done { .. } => return Ok(()),
            Ran::Need { oref, .. } => place(copies, pages, oref.page)?,
            Ran::NeedName { .. } => return Err(Fail::new("a name")),
        }
    }
    Err(Fail::new("not done"))
}

/// Walks of a client that holds at most so many pages between them; or its pages alone, placed and let go.
fn walks(
    alloc: Global,
    schema: &Schema,
    tx: &Block,
    held: u32,
    alone: bool,
    count: u32,
) -> Result<(), Fail> {
    let mut pages: Sequence<Text> = Sequence::new(alloc);
    for number in 0..NODES_COUNT {
        pages.push(node_page(alloc, number)?)?;
    }
    let mut copies = Copies::new(alloc, held)?;
    let text = SharedBlock::copy_of(alloc, tx)?;
    let methods = class_methods(alloc, &schema.classes)?;
    for _ in 0..count {
        if alone {
            for number in 0..NODES_COUNT {
                place(&mut copies, &pages, number)?;
            }
        } else {
            walk(alloc, schema, &methods, &text, &pages, &mut copies)?;
        }
        copies.evict();
    }
    Ok(())
}

fn main(rt: HostRuntime) -> Result<(), Fail> {
    let alloc = rt.alloc();
    let words = env::args(&rt)?.collect::<Vec<String>>(alloc)?;
    if let [_, how, what, count] = words.as_slice() {
        let how = how.as_str().parse::<u32>()?;
        let what = what.as_str().parse::<u32>()?;
        let count = count.as_str().parse::<u32>()?;
        let setup = if what < 2 { SETUP } else { NODES };
        let declared = match parse_setup(alloc, &scan(alloc, setup)?) {
            Ok(declared) => declared,
            Err(_) => return Err(Fail::new("no setup")),
        };
        let schema = schema_of(alloc, declared)?;
        let text = match what {
            0 => TRANSFER,
            1 => LOOP,
            _ => WALK,
        };
        let tx = match parse_block(alloc, &scan(alloc, text)?) {
            Ok(tx) => tx,
            Err(_) => return Err(Fail::new("no block")),
        };
        if what == 2 {
            let held = if how == 0 { NODES_COUNT } else { 1 };
            walks(alloc, &schema, &tx, held, how == 2, count)?;
        } else if how == 0 {
            by_eval(alloc, &schema, &tx, count)?;
        } else {
            by_go(alloc, &schema, &tx, count)?;
        }
    }
    Ok(())
}
RT
build
program=$work/crates/eval_speed/out/eval_speed
if [ "$(head -c 4 "$program" | tail -c 3)" = ELF ]; then
    objcopy --strip-debug "$program" "$work/program"
    program=$work/program
fi

# counted HOW WHAT COUNT: the instructions of so many evaluations by `eval` (0) or by `go` (1) of the transfer (0) or the loop (1).
counted() {
    valgrind --tool=callgrind --trace-children=yes --callgrind-out-file="$work/counts.%p" "$program" "$@" 2>&1 > /dev/null |
        awk '/ refs:/ { gsub(",", "", $NF); if ($NF > most) most = $NF } END { print most }'
}

# each NAME WHAT FEW MANY: an evaluation more, by `eval` and by `go`.
each() {
    by_eval=$(( ($(counted 0 "$2" "$4") - $(counted 0 "$2" "$3")) / ($4 - $3) ))
    by_go=$(( ($(counted 1 "$2" "$4") - $(counted 1 "$2" "$3")) / ($4 - $3) ))
    awk -v name="$1" -v e="$by_eval" -v g="$by_go" 'BEGIN { printf "%s: %d instructions, eval %d: %.2f times\n", name, g, e, g / e }'
}

# undone COUNT: what it takes to give up a transfer, in instructions of one, with what it calls.
undone() {
    rm -f "$work"/counts.*
    counted 1 0 "$1" > /dev/null
    for file in "$work"/counts.*; do
        callgrind_annotate --inclusive=yes --threshold=100 "$file" 2> /dev/null
    done | awk -v count="$1" '/:(paused_eval::copies::Copies|client_cache::cache::Cache)::undo / {
        gsub(",", "", $1); if ($1 > most) most = $1 } END { printf "%d\n", most / count }'
}

# A transfer more, by `eval`, and by `go` with what gives it up and without.
by_eval=$(( ($(counted 0 0 1100) - $(counted 0 0 100)) / 1000 ))
by_go=$(( ($(counted 1 0 1100) - $(counted 1 0 100)) / 1000 ))
awk -v e="$by_eval" -v g="$by_go" -v u="$(undone 1100)" 'BEGIN {
    printf "a transfer begun and run to its end: %d instructions, eval %d: %.2f times; given up besides %d: %.2f times\n", g - u, e, (g - u) / e, u, g / e }'
each "a loop of 12,499 turns" 1 1 5

# walk HOW: one more walk at hand (0), with a stop at each object (1), and its pages alone (2).
walk() {
    echo $(( ($(counted "$1" 2 6) - $(counted "$1" 2 2)) / 4 ))
}

at=$(walk 0) stops=$(walk 1) alone=$(walk 2)
awk -v at="$at" -v stops="$stops" -v alone="$alone" 'BEGIN {
    printf "1,000 objects at hand: %d instructions; with 1,000 stops %d, %.2f times; without what its pages cost, %d: %.2f times; with its pages placed before in the one and at the stops in the other: %.2f times\n", at, stops, stops / at, alone, (stops - alone) / at, stops / (at + alone) }'

# The same in the processor's time, by turns: at real-time priority where that is allowed, so that other work takes little of it.
python3 - "$program" <<'END'
import resource, subprocess, sys

program = sys.argv[1]
TURNS = 15
try:
    subprocess.run(["chrt", "-f", "40", "true"], check=True, stderr=subprocess.DEVNULL)
    ahead = ["chrt", "-f", "40"]
except (OSError, subprocess.CalledProcessError):
    ahead = []


def seconds(*words):
    before = resource.getrusage(resource.RUSAGE_CHILDREN)
    subprocess.run([*ahead, program, *map(str, words)], check=True, stdout=subprocess.DEVNULL)
    after = resource.getrusage(resource.RUSAGE_CHILDREN)
    return after.ru_utime + after.ru_stime - before.ru_utime - before.ru_stime


def by_turns(*runs):
    """The seconds of each run in each turn, without those that it takes to do nothing."""
    none = [min(seconds(*run[:-1], 0) for _ in range(3)) for run in runs]
    turns = [[seconds(*run) - least for run, least in zip(runs, none)] for _ in range(TURNS)]
    return list(zip(*turns))


def told(name, over, under):
    ratios = sorted(a / b for a, b in zip(over, under))
    print(f"{name}: {ratios[len(ratios) // 2]:.2f} times in the median of {TURNS} turns, {min(over) / min(under):.2f} times in the least")


by_eval, by_go = by_turns((0, 0, 500000), (1, 0, 500000))
told("a transfer begun, run to its end and given up, in time of eval's", by_go, by_eval)
by_eval, by_go = by_turns((0, 1, 200), (1, 1, 200))
told("a loop, in time of eval's", by_go, by_eval)
at, stops, alone = by_turns((0, 2, 300), (1, 2, 300), (2, 2, 300))
told("1,000 stops, in time of a walk at hand", stops, at)
told("without what its pages cost", [s - a for s, a in zip(stops, alone)], at)
told("with its pages placed before and at the stops", stops, [n + a for n, a in zip(at, alone)])
END
