#!/usr/bin/env bash
# A recovery drill of 72 runs: a transfer between two repositories, each of which is stopped in each of its first nine disk calls and
# comes back with each of four crash states of its disks.
#
#     examples/drill.sh ./kilntaupe
#
# Look at any line: for each of the crash states it has what the two accounts hold at the end. The transfer has happened once, never
# twice, and never at one repository alone. The same can be done with a script of yours: put its items in the place of these.
set -eu
program=$1
for repository in 0 1; do
    for call in 1 2 3 4 5 6 7 8 9; do
        told=
        for pick in 0 1 2 99; do
            told="$told | $("$program" play --repos 2 << SCRIPT | awk '$1 == "1.3" { print $2, $(NF - 1), $NF; exit }'
setup
free class Account {
    int pence;
    method int holds() { return this.pence; }
    method int add(int amount) { this.pence = this.pence + amount; return this.pence; }
    method int move(Account to, int amount) { this.add(-amount); to.add(amount); return amount; }
}
root here = new Account() at 0;
root there = new Account() at 1;
client 1
tx { here.add(100); there.add(100); }
tx { print here.move(there, 30); }
tx { print here.holds(); print there.holds(); }
schedule
s1 s1 s1 s1 s1 s1 s1 s1 s1 s1 s1 s1             // the first transaction has committed
x$repository.$call                              // the stop
s1 s1 s1 s1 f$repository k$repository s1 s1     // the transfer, a flush, and a checkpoint
c$repository.$pick                              // the restart
SCRIPT
)"
        done
        echo "repository $repository, disk call $call$told"
    done
done
