"""The script that `gen N` makes over M repositories, written down once more: checks/bank.py N M prints it."""
import sys

METHODS = (
    "method int get() { return this.n; } method int add(int k) { this.n = this.n + k; return this.n; } "
    "method int move(Acct to, int k) { this.n = this.n - k; to.add(k); return k; }"
)
AUDIT = "tx { print " + " + ".join(f"a{i}.get()" for i in range(16)) + "; }"
UPGRADE = f"upgrade {{ class Acct {{ int n = old.n; int fee = 0; {METHODS} }} }}"


def numbers(state):
    """The generator's numbers, of 31 bits each."""
    while True:
        state = (state * 6364136223846793005 + 1442695040888963407) % 2**64
        yield state >> 33


def item(n, client, place, source, target):
    if (client, place) == (1, 12 * n):
        return UPGRADE
    return AUDIT if source == target else f"tx {{ a{source}.move(a{target}, {place % 9 + 1}); }}"


def event(place, repos, draw):
    if place % 500 == 499:
        return f"k{place // 500 % repos}"
    if place % 50 == 49:
        return f"f{place // 50 % repos}"
    return f"s{next(draw) % 4 + 1}"


def script(n, repos):
    draw = numbers(n)
    lines = ["setup", f"free class Acct {{ int n; {METHODS} }}"]
    lines += [f"root a{i} = new Acct() at {i % repos};" for i in range(16)]
    for client in range(1, 5):
        lines.append(f"client {client}")
        lines += [item(n, client, place, next(draw) % 16, next(draw) % 16) for place in range(25 * n)]
    lines.append("schedule")
    lines += [event(place, repos, draw) for place in range(200 * n)]
    return "".join(line + "\n" for line in lines)


if __name__ == "__main__":
    sys.stdout.write(script(int(sys.argv[1]), int(sys.argv[2])))
