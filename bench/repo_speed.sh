#!/usr/bin/env bash
# One repository over disks in memory: how many transactions of one object it draws a timestamp for and commits a second, for one
# session, behind 1,000 to 100,000 commits, which must not make it slower, and how many bytes of memory a commit takes; and the
# same for 64 sessions that have the same 100 pages, each of which takes the messages that wait for it before it commits.
# repo_speed.sh [SHARED COMMITS]
set -eu
shared=${1:-10000}
source "$(dirname "$0")/measuring.sh"
begin repo_speed $(below repo_core)
cat > "$work/crates/repo_speed/src/main.rt" <<'RT'
#![tactic(auto)]

use class_defs::{Roots, Schema, Setup};
use log_entries::{Kind, Request};
use disk_trait::{MemParts, Parts, TickClock};
use session_outbox::Message;
use repo_core::Repo;
use std::alloc::Global;
use std::env;
use std::test::Fail;
use thor_value::{Answer, NoMemory, Obj, Oref, Orefs, Repos, Sequence, Ts, Value, Who, Writes};

/// What a session of a client knows.
#[derive(Drop)]
struct Client {
    session: u32,
    number: u8,
    upto: u64,
}

/// A repository without classes and roots.
fn formatted<P: Parts>(alloc: Global, parts: P) -> Result<Repo<P>, Fail> {
    let setup = Setup {
        schema: Schema {
            classes: Sequence::new(alloc),
            upgraded: Sequence::new(alloc),
            roots: Sequence::new(alloc),
        },
        roots: Roots::new(alloc),
    };
    match Repo::format(alloc, parts, 0, 1, &setup, 16_777_216) {
        Ok(repo) => Ok(repo),
        Err(_) => Err(Fail::new("not formatted")),
    }
}

/// A request that reads and writes the first object of a page.
fn request(alloc: Global, tx: Ts, client: &Client, page: u32) -> Result<Request, NoMemory> {
    let oref = Oref {
        repo: 0,
        page,
        slot: 0,
    };
    let mut ros = Orefs::new(alloc);
    ros.push(oref)?;
    let mut fields = Sequence::new(alloc);
    fields.push(Value::Int(7))?;
    let mut writes = Writes::new(alloc);
    let object = Obj {
        class: 0,
        ver: 0,
        fields,
    };
    writes.push((oref, object))?;
    Ok(Request {
        tx,
        who: Who {
            client: client.number,
            index: 1,
        },
        session: client.session,
        kind: Kind::App,
        epoch: 0,
        upto: client.upto,
        ros,
        writes,
        fresh: Orefs::new(alloc),
        answer: Answer::Ints(Sequence::new(alloc)),
        others: Repos::new(alloc),
    })
}

/// The session takes what waits for it.
fn take<P: Parts>(repo: &mut Repo<P>, client: &mut Client) -> Result<(), Fail> {
    for _ in 0..1_000_000u32 {
        match repo.receive(client.session) {
            Ok(Some(Message::Invalid { place, .. })) => {
                client.upto = place.saturating_add(1);
            }
            Ok(Some(_)) => {}
            Ok(None) => return Ok(()),
            Err(_) => return Err(Fail::new("not received")),
        }
    }
    Ok(())
}

/// The session commits a transaction on a page.
fn commit<P: Parts>(
    alloc: Global,
    repo: &mut Repo<P>,
    client: &Client,
    page: u32,
) -> Result<(), Fail> {
    let tx = match repo.draw(client.session, 0) {
        Ok(tx) => tx,
        Err(_) => return Err(Fail::new("not drawn")),
    };
    let request = request(alloc, tx, client, page)?;
    if !repo.may_request(&request, true) {
        return Err(Fail::new("no request"));
    }
    match repo.commit_one(client.session, request) {
        Ok(_) => Ok(()),
        Err(_) => Err(Fail::new("not committed")),
    }
}

/// A session that has these pages.
fn connected<P: Parts>(repo: &mut Repo<P>, number: u8, pages: u32) -> Result<Client, Fail> {
    let session = match repo.connect(number) {
        Ok(welcome) => welcome.session,
        Err(_) => return Err(Fail::new("not connected")),
    };
    let mut client = Client {
        session,
        number,
        upto: 0,
    };
    for page in 0..pages {
        if repo.fetch(session, page, 0).is_err() {
            return Err(Fail::new("not fetched"));
        }
        take(repo, &mut client)?;
    }
    Ok(client)
}

/// So many sessions that have so many pages, in turn, so many commits.
fn work<P: Parts>(
    alloc: Global,
    parts: P,
    sessions: u8,
    pages: u32,
    commits: u32,
) -> Result<(), Fail> {
    let mut repo = formatted(alloc, parts)?;
    let mut clients = Vec::new(alloc);
    for number in 0..sessions {
        clients.push(connected(&mut repo, number.saturating_add(1), pages)?)?;
    }
    for count in 0..commits {
        let at = count as usize % clients.len().max(1);
        if let Some(client) = clients.get_mut(at) {
            if sessions > 1 {
                take(&mut repo, client)?;
            }
            commit(alloc, &mut repo, client, count % pages.max(1))?;
        }
    }
    Ok(())
}

fn main(rt: HostRuntime) -> Result<(), Fail> {
    let alloc = rt.alloc();
    let words = env::args(&rt)?.collect::<Vec<String>>(alloc)?;
    if let [_, sessions, pages, commits] = words.as_slice() {
        let sessions = sessions.as_str().parse::<u8>()?;
        let pages = pages.as_str().parse::<u32>()?;
        let commits = commits.as_str().parse::<u32>()?;
        let parts = MemParts::new(
            Vec::new(alloc),
            Vec::new(alloc),
            Vec::new(alloc),
            Vec::new(alloc),
            TickClock::new(1),
        );
        work(alloc, parts, sessions, pages, commits)?;
    }
    Ok(())
}
RT
build

# The seconds of the processor that a run takes, and the kilobytes of memory.
busy() { /usr/bin/time -f "%U %S %M" "$work/crates/repo_speed/out/repo_speed" "$@" 2>&1 > /dev/null | awk '{ print $1 + $2, $3 }'; }

echo "load: $(cut -d ' ' -f 1-3 /proc/loadavg)"
read -r before room <<< "$(busy 1 1 0)"
for commits in 1000 10000 100000; do
    read -r all most <<< "$(busy 1 1 "$commits")"
    awk -v n="$commits" -v t="$all" -v b="$before" -v m="$most" -v r="$room" 'BEGIN {
        t -= b
        printf "one session: %d commits in %.3f s of the processor, %.0f a second, %.0f bytes of memory each\n", n, t, n / t, 1024 * (m - r) / n }'
done
read -r before room <<< "$(busy 64 100 0)"
read -r all most <<< "$(busy 64 100 "$shared")"
awk -v n="$shared" -v t="$all" -v b="$before" -v m="$most" -v r="$room" 'BEGIN {
    t -= b
    printf "64 sessions with 100 pages: %d commits in %.3f s of the processor, %.0f a second, %.0f bytes of memory each\n", n, t, n / t, 1024 * (m - r) / n }'
