#!/usr/bin/env bash
# Prints how long the proved program takes for scripts of 8 MB, and how much memory it has at most, by GNU time.
# Each is read and scanned whole; what else is done with it stands beside it.
set -eu
here=$(cd "$(dirname "$0")/.." && pwd)
program=${PROGRAM:-$here/crates/thor_shell/out/thor_shell}
[ -x "$program" ] || { echo "build the program first: KILNTAUPE_WAIT=1 $here/kilntaupe play < $here/examples/first.script" >&2; exit 1; }
room=$(mktemp -d)
trap 'rm -rf "$room"' EXIT

python3 - "$room" <<'PYTHON'
import sys

SIZE = 8388608
SETUP = "setup free class Box { int n; method int get() { return this.n; } } root a = new Box();\n"


def put(name, front, piece, end=""):
    count = (SIZE - len(front) - len(end)) // len(piece)
    with open(f"{sys.argv[1]}/{name}", "w") as out:
        out.write(front + piece * count + end)


put("comments, and no transaction", SETUP, "// " + "x" * 60 + "\n")
put("statements, parsed, checked and run to the step limit", SETUP + "client 1 tx {", "print a.get(); ", "}")
put("brackets, one token a byte, refused", SETUP + "client 1 tx {", "(")
PYTHON

for script in "$room"/*; do
    /usr/bin/time -f "%e s, %M kB: $(basename "$script")" "$program" play < "$script" 2>&1 > "$room/report" | grep " kB"
done
