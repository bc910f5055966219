#!/usr/bin/env bash
# Where the processor's work of a run goes: instructions by phase and by function, with everything that a function calls,
# counted by callgrind, so that other work on the machine changes nothing. It needs valgrind.
#
#   bench/profile.sh PROGRAM [WORD..]
#
# PROGRAM is an executable with its symbols, or a script whose last line starts one. The WORDs are those of the program
# (`gen 30` where there are none); standard input is handed on. Beside the total it prints the share of each phase: reading,
# checking, running, the check of the report; then the 40 functions with the largest shares, each with how often it was
# called, and the 15 with the most work of their own. The counts of the bank's items are level where each item costs the
# same whatever came before it: `gen 10`, `gen 30` and `gen 100` behind each other show that.
set -eu
[ $# -ge 1 ] || { sed -n '2,13s/^# \{0,1\}//p' "$0" >&2; exit 2; }
command -v valgrind > /dev/null || { echo "there is no valgrind" >&2; exit 1; }
program=$1
shift
[ $# -gt 0 ] || set -- gen 30
work=$(mktemp -d "${TMPDIR:-/tmp}/profile.XXXXXX")
trap 'rm -rf "$work"' EXIT
# (valgrind gives up on sections for debuggers that it doesn't know; the names of functions stay)
if [ "$(head -c 4 "$program" | tail -c 3)" = ELF ]; then
    objcopy --strip-debug "$program" "$work/program"
    program=$work/program
fi
status=0
valgrind --tool=callgrind --trace-children=yes --callgrind-out-file="$work/counts.%p" "$program" "$@" \
    > "$work/out" 2> "$work/said" || status=$?
[ "$status" -le 1 ] || { cat "$work/said" >&2; exit "$status"; }
python3 - "$(ls -S "$work"/counts.* | head -1)" "$*" <<'END'
import re
import sys

PHASES = [("reading", "top_judging::reading::script_of"), ("checking", "top_judging::judging::judged"),
          ("running", "cluster_core::cluster::Cluster::turn"), ("the check of the report", "thor_top::telling::reported")]
names, own, whole, calls, edge = {}, {}, {}, {}, None


def name(text):
    number, rest = re.match(r"\((\d+)\)(?: (.*))?", text).groups()
    if rest:
        names[number] = re.sub(r"::<#[0-9a-f]+>|'\d+$", "", rest)
    return names[number]


for line in open(sys.argv[1]):
    if line.startswith("fn="):
        here = name(line[3:].strip())
    elif line.startswith("cfn="):
        there = name(line[4:].strip())
    elif line.startswith("calls="):
        edge = int(line[6:].split()[0])
    elif line[:1] in "0123456789+-*" and line.strip():
        count = int(line.split()[-1])
        if edge is None:
            own[here] = own.get(here, 0) + count
        else:
            calls[there] = calls.get(there, 0) + edge
            if there != here:
                whole[there] = whole.get(there, 0) + count
            edge = None
total = sum(own.values())
print(f"{sys.argv[2]}: {total:,} instructions")
for phase, at in PHASES:
    print(f"{phase}: {100 * sum(n for f, n in whole.items() if f == at) / total:.1f} of 100")
print("\nof 100   calls     with what it calls")
for f, n in sorted(whole.items(), key=lambda x: -x[1]):
    if n < total and "::" in f and not f.startswith("???"):
        print(f"{100 * n / total:6.1f} {calls[f]:9,}  {f}")
        PHASES.append(f)
        if len(PHASES) >= 44:
            break
print("\nof 100   its own work")
for f, n in sorted(own.items(), key=lambda x: -x[1])[:15]:
    print(f"{100 * n / total:6.1f}   {f}")
END
