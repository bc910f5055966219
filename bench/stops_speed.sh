#!/usr/bin/env bash
# What it costs that a transaction stops: one that reads 1,000 objects, each on a page of its own, performed 20 times by a client
# whose cache keeps one page, so that it stops at each object and fetches its page, and by one whose cache keeps them all. It
# needs the proved program, or the one that is named, and Python 3.
#
#   bench/stops_speed.sh [PROGRAM]
set -eu
cd "$(dirname "$0")/.."
program=${1:-crates/thor_shell/out/thor_shell}
[ -x "$program" ] || { echo "there is no $program: KILNTAUPE_WAIT=1 ./kilntaupe builds it" >&2; exit 1; }
echo "$(nproc) processors, load $(cut -d ' ' -f 1 /proc/loadavg)"
python3 - "$program" <<'END'
import resource, subprocess, sys

program = sys.argv[1]
CLASS = """free class Node {
    int number;
    Node next;
    method int get() { return this.number; }
    method Node rest() { return this.next; }
    method int begin(int value, Node behind) { this.number = value; this.next = behind; return 0; }
    method int fill(int count) {
        while (0 < count) {
            var Node node = new Node();
            node.begin(count, this.next);
            this.next = node;
            var int others = 11;
            while (0 < others) { node = new Node(); others = others - 1; }
            count = count - 1;
        }
        return count;
    }
}
"""
PAGES, TIMES = 1000, 20
WALK = "tx { var Node n = r; var int s = 0; while (n != null) { s = s + n.get(); n = n.rest(); } print s; }\n"


def play(words, items):
    """The processor's seconds of a run in which the second client walks so often."""
    script = f"setup {CLASS}root r = new Node();\nclient 1\n" + "tx { r.fill(5); }\n" * (PAGES // 5) + "client 2\n" + WALK * items
    script += "schedule\n" + "s1 " * (20 * (PAGES // 5))
    before = resource.getrusage(resource.RUSAGE_CHILDREN)
    ran = subprocess.run([program, "play", "--mob", "16777216", *words], input=script.encode(), stdout=subprocess.PIPE)
    assert ran.returncode == 0 and ran.stdout.count(b" : %d\n" % (15 * (PAGES // 5))) == 2 * items, ran.stdout[-200:]
    after = resource.getrusage(resource.RUSAGE_CHILDREN)
    return after.ru_utime + after.ru_stime - before.ru_utime - before.ru_stime


def walk(words):
    """The processor's seconds of a walk, without what comes before the first one: the median of 5 runs."""
    return sorted((play(words, TIMES + 1) - play(words, 1)) / TIMES for _ in range(5))[2]


stops, none = walk(["--cache", "1"]), walk(["--cache", "4096"])
print(f"{PAGES} stops: {stops * 1e3:.2f} ms; without a stop: {none * 1e3:.2f} ms; {stops / none:.2f} times its time, "
      f"{(stops - none) / PAGES * 1e6:.2f} microseconds a stop")
END
