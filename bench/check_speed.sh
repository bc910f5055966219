#!/usr/bin/env bash
# Prints how long the proved program takes to read and check the greatest setups, 256 classes with 32 fields and 64
# methods each and 256 roots, and to run a transaction of one statement behind them. Fails where that takes a second or
# more; the setup with five statements in each method has about the greatest length of a script, and is only told.
# check_speed.sh [PROGRAM]
set -eu
here=$(cd "$(dirname "$0")/.." && pwd)
program=${1:-$here/crates/thor_shell/out/thor_shell}
[ -x "$program" ] || { echo "build the program first: KILNTAUPE_WAIT=1 $here/kilntaupe play < $here/examples/first.script" >&2; exit 1; }
room=$(mktemp -d)
trap 'rm -rf "$room"' EXIT

python3 - "$room" <<'PYTHON'
import sys


def setup(name, front, statements):
    """Names that begin alike; each body calls methods that stand last in their class, of classes that stand last."""

    def called(kind, number):
        return f"{front}{kind}{number:03}"

    def body(c, m):
        field, other = called("f", m % 16), called("f", 16 + m % 16)
        call = f"this.{other}.{called('m', 63)}(k + {m}, last)"
        put = f"this.{field} = this.{field} + k * {call} - last.{called('m', 62)}({c}, last); "
        return put * statements + f"return this.{field};"

    with open(f"{sys.argv[1]}/{name}", "w") as out:
        out.write("setup\n")
        for c in range(256):
            out.write(f"free class {called('C', c)} {{\n")
            for f in range(16):
                out.write(f"    int {called('f', f)};\n")
            for f in range(16, 32):
                out.write(f"    {called('C', 255 - (c + f) % 16)} {called('f', f)};\n")
            for m in range(64):
                out.write(f"    method int {called('m', m)}(int k, {called('C', 255)} last) {{ {body(c, m)} }}\n")
            out.write("}\n")
        for c in range(256):
            out.write(f"root {called('r', c)} = new {called('C', c)}();\n")
        out.write("client 1 tx { print 7; }\n")


setup("short names, a statement in each method", "", 1)
setup("names of 32 bytes, a statement in each method", "x" * 28, 1)
setup("only told: short names, five statements in each method", "", 5)
PYTHON

failed=0
echo "load: $(cut -d ' ' -f 1-3 /proc/loadavg)"
for script in "$room"/*; do
    name=$(basename "$script")
    /usr/bin/time -o "$room/.took" -f "%e %U %S %M" "$program" play < "$script" > "$room/.report" || true
    head -n 1 "$room/.report" | grep -q '^1.1 Done .* : 7$' || { echo "the setup is refused: $(head -n 1 "$room/.report")"; failed=1; }
    read -r passed user system memory <<< "$(tail -n 1 "$room/.took")"
    echo "$passed $user $system $memory $(stat -c %s "$script") $name" |
        awk '{ printf "%.2f s (%.2f s of the processor), %d MB:%s, %.1f MB\n", $1, $2 + $3, $4 / 1024, substr($0, index($0, $5) + length($5)), $5 / 1e6 }'
    case $name in
        "only told"*) ;;
        *) awk -v t="$passed" 'BEGIN { exit t >= 1 }' || { echo "that is a second or more"; failed=1; } ;;
    esac
done
exit $failed
