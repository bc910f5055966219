#!/usr/bin/env bash
# Parses and spells a full page many times, and prints how many a second.
# page_speed.sh [PAGES]
set -eu
pages=${1:-2000000}
source "$(dirname "$0")/measuring.sh"
begin page_speed thor_value page_format
cat > "$work/crates/page_speed/src/main.rt" <<'RT'
#![tactic(auto)]

use page_format::Page;
use std::env;
use std::test::Fail;

fn main(rt: HostRuntime) -> Result<(), Fail> {
    let alloc = rt.alloc();
    let words = env::args(&rt)?.collect::<Vec<String>>(alloc)?;
    let mut page = Page::empty(alloc, 3)?;
    for slot in 0..12 {
        page.put(slot, &[7; 295])?;
    }
    let text = page.spell()?;
    if let [_, what, count] = words.as_slice() {
        for _ in 0..count.as_str().parse::<u64>()? {
            if what.as_str() == "parse" {
                let _ = Page::parse(alloc, text.as_slice())?;
            } else {
                let _ = page.spell()?;
            }
        }
    }
    Ok(())
}
RT
build
seconds() { local from=$EPOCHREALTIME; "$@"; awk -v a="$from" -v b="$EPOCHREALTIME" 'BEGIN { printf "%.3f", b - a }'; }
for what in parse spell; do
    took=$(seconds "$work/crates/page_speed/out/page_speed" "$what" "$pages")
    awk -v w="$what" -v n="$pages" -v t="$took" 'BEGIN { printf "%s: %d pages in %.3f s, %.0f a second\n", w, n, t, n / t }'
done
