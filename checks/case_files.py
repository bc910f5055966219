"""Reads files of cases.

A file begins with comment lines (#). Then for each case:

    === NAME | words of the command line
    the script
    --- exit status
    the output, as it is

Each line of the script ends with byte 10, but for one with a lone backslash at its end, which doesn't. In it \\xNN is the
byte NN and \\\\ a backslash. A line `\\*N TEXT` stands for N lines TEXT in which each % is 0, 1, .. N - 1, each %{K} is K,
K + 1, .. and each %{K,S} is K, K + S, ..; the output may have such lines, too. A line of a script
that begins with `--- ` or `=== ` is written with \\x2d or \\x3d at its beginning. NAME is NAME or GROUP/NAME.

A case of several runs on one store goes on behind the output:

    --- disks                  what each disk has after this run, a line a disk:
    R.D LENGTH sha256 HASH     disk D of repository R (the files R.log0, R.log1 and R.pages
    R.D LENGTH hex BYTES       for D = 0, 1, 2); short ones in full
    --- before                 what is done to the disks before the next run, line by line:
    flip R.D AT XX             the byte at AT is combined with XX by exclusive or
    put R.D AT BYTES           the bytes from AT on are these, in hexadecimal
    cut R.D LENGTH             the disk has its first LENGTH bytes alone
    swap R S                   repositories R and S exchange their three disks
    trade R.D S.E              two disks are exchanged
    back R N                   repository R's disks are as run N (from 1) left them
    bound N                    in the next run no file can grow past N bytes: a write
                               leaves what fits and fails
    nofolder                   in the next run the store's folder isn't there
    block R.D                  in the next run that file can't be opened, since a folder has its name
    source broken              in the next run reading the script fails
    sink broken                in the next run each write of the output fails
    sink N                     in the next run the output goes to a file, and no file can grow past N bytes
    --- then | words of the command line
    the script
    --- exit status
    the output, and so on

A script may have, between it and the exit status, what fails in its run:

    --- parts
    fail R.D EVENT K           the K-th call on that disk from the beginning of EVENT on fails, and changes nothing. EVENT is
    failfrom R.D EVENT K       the number of a token of the schedule, from 1, or `open`, or `end`, which is what stands behind
                               the last token. `failfrom`: and so does each later call on the disk
    clock R tick N             the clock of repository R gives N, N + 1, .., or the numbers that are listed and then the last
    clock R list N N ..        of them again and again

`--- disks` and `--- before` may be left out. A case of several runs, or with `--- disks`, has a store: a folder that is
empty before its first run and stays for all of them, named by `--store` behind the run's words.

checks/vectors.left_out names cases that the program isn't asked for, with the reasons.

A case with the words `generate N M` is no run: it tells of the script that `gen N` makes over M repositories, by one line
`LENGTH sha256 HASH` behind `--- text`.
"""
import dataclasses
import fnmatch
import functools
import pathlib
import re
import sys


HERE = pathlib.Path(__file__).resolve().parent


@dataclasses.dataclass
class Run:
    """One run of the program: its words, its script, and what is wanted of it. `before` and `parts` are lines of words."""

    words: list
    script: bytes = b""
    status: int = 0
    output: bytes = b""
    disks: list = None
    before: list = dataclasses.field(default_factory=list)
    parts: list = dataclasses.field(default_factory=list)


@dataclasses.dataclass
class Case:
    """A case: its runs, or none where it tells of a generated script: of N, M, its length and its hash."""

    name: str
    runs: list = dataclasses.field(default_factory=list)
    text: tuple = None

    @property
    def has_store(self):
        return len(self.runs) > 1 or any(run.disks is not None or run.before or run.parts for run in self.runs)


@functools.cache
def lines_of(name):
    """The lines of a list in this folder that say something."""
    return [line for line in (HERE / name).read_text().splitlines() if line[:1] not in ("", "#")]


def left_out(file, case):
    """Why a case of a file isn't run; `None` where it is."""
    for line in lines_of("vectors.left_out"):
        name, pattern, reason = line.split(" ", 2)
        if name == file and fnmatch.fnmatchcase(case, pattern):
            return reason
    return None


def unescaped(line):
    return re.sub(rb"\\(?:x([0-9a-f]{2})|\\)", lambda it: bytes.fromhex(it[1].decode()) if it[1] else b"\\", line)


def repeated(line):
    """The lines that a line stands for where it is one for many, else None."""
    many = re.fullmatch(rb"\\\*([0-9]+) (.*)", line, re.S)
    if not many:
        return None
    parts = re.split(rb"%(?:\{([0-9]+)(?:,([0-9]+))?\})?", many[2])  # (text, first, step, text, first, step, .., text)
    places = [(int(first or 0), int(step or 1)) for first, step in zip(parts[1::3], parts[2::3])]
    pattern = b"%d".join(part.replace(b"%", b"%%") for part in parts[::3])
    return [pattern % tuple(first + i * step for first, step in places) for i in range(int(many[1]))]


def script_of(lines):
    script = b""
    for line in lines:
        many = repeated(line)
        if many is not None:
            script += b"".join(unescaped(it) + b"\n" for it in many)
        elif (len(line) - len(line.rstrip(b"\\"))) % 2:
            script += unescaped(line[:-1])
        else:
            script += unescaped(line) + b"\n"
    return script


def disk_of(line):
    place, length, kind, digits = (line.decode() + " ").split(" ")[:4]
    repo, disk = place.split(".")
    return int(repo), int(disk), int(length), kind, digits


def add_section(case, head, body, before):
    """Adds a section to a case. The answer is what is to be done before the next run."""
    if head.startswith("then |"):
        case.runs.append(Run(head[6:].split(), script_of(body), before=before))
        return []
    if head == "before":
        return [line.decode().split() for line in body]
    if head == "parts":
        case.runs[-1].parts = [line.decode().split() for line in body]
    elif head == "disks":
        case.runs[-1].disks = [disk_of(line) for line in body]
    elif head == "text":
        (_, n, repos), (length, _, digits) = case.runs.pop().words, body[0].decode().split()
        case.text = int(n), int(repos), int(length), digits
    else:
        case.runs[-1].status = int(head)
        case.runs[-1].output = b"".join(it + b"\n" for line in body for it in repeated(line) or [line])
    return before


def cases_of(path):
    """The cases of a file, in their order."""
    lines = pathlib.Path(path).read_bytes().split(b"\n")
    lines = lines[: len(lines) - (lines[-1] == b"")]
    at = next((i for i, line in enumerate(lines) if not line.startswith(b"#")), len(lines))
    while at < len(lines):
        head = re.fullmatch(rb"=== ([a-z0-9_/]+) \|(.*)", lines[at])
        if not head:
            sys.exit(f"{path}: line {at + 1} doesn't begin a case")
        case, section, before = Case(head[1].decode()), f"then |{head[2].decode()}", []
        while section is not None:
            end = next((i for i in range(at + 1, len(lines)) if lines[i].startswith((b"=== ", b"--- "))), len(lines))
            before = add_section(case, section, lines[at + 1 : end], before)
            at = end
            section = lines[at][4:].decode() if at < len(lines) and lines[at].startswith(b"--- ") else None
        yield case
