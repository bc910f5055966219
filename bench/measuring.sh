# What the scripts share that measure a program of their own: they source this file.

here=$(cd "$(dirname "${BASH_SOURCE[0]}")" && pwd)

# below CRATE: the crates on which it stands, and itself, lowest first.
below() {
    awk -v at="$1" -F ': *| +' '{ sub(/ .*/, "", $1); line[NR] = $0; name[NR] = $1 } END {
        want[at] = 1
        for (n = NR; n > 0; n--) if (want[name[n]]) {
            count = split(line[n], words, /[: ]+/)
            for (w = 2; w <= count; w++) want[words[w]] = 1
        }
        for (n = 1; n <= NR; n++) if (want[name[n]]) print name[n]
    }' "$here/../crates.txt"
}

# begin NAME CRATE..: makes the folder $work, which is gone when the script ends, with copies of these crates and room for
# the crate NAME, which stands on them: its main is to be written to $work/crates/NAME/src/main.rt. The folder lies in the
# one that $place names, else in /tmp.
begin() {
    measured=$1
    shift
    work=$(mktemp -d "${place:-/tmp}/$measured.XXXXXX")
    trap 'rm -rf "$work"' EXIT
    mkdir -p "$work/crates/$measured/src"
    for crate in "$@"; do
        cp -r "$here/../crates/$crate" "$work/crates/"
        grep "^$crate:" "$here/../crates.txt"
    done > "$work/crates.txt"
    echo "$measured: $*" >> "$work/crates.txt"
}

# Proves and builds it like any other program, and so the crates below it where they have no build: it is
# $work/crates/NAME/out/NAME then. Where UNPROVED names a command, that builds it: it is given the crate's folder and the
# program's path. What is measured so is no proved program, and its figures say so.
build() {
    if [ -n "${UNPROVED:-}" ]; then
        mkdir -p "$work/crates/$measured/out"
        "$UNPROVED" "$work/crates/$measured" "$work/crates/$measured/out/$measured"
        return
    fi
    (cd "$work/crates/$measured" && rt run) > "$work/said" 2>&1 || { cat "$work/said" >&2; exit 1; }
}
