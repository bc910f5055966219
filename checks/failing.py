"""Runs of the program whose devices fail: checks/fail_calls.c is built with `cc` and preloaded. It says what it can be asked.

The cases of failing devices (checks/case_files.py: `--- parts`) name a call by its repository, its disk, an event and its
number in that event. `asked_of` finds the call on a file that is meant. A sync that fails loses what wasn't synced, as the
restart behind it would on a disk in memory.
"""
import atexit
import functools
import os
import pathlib
import shutil
import subprocess
import sys
import tempfile
import threading

SOURCE = pathlib.Path(__file__).resolve().parent / "fail_calls.c"
ENDS = ("log0", "log1", "pages")  # of the files of a repository
CALLS = ("pread", "pwrite", "fdatasync")  # what a disk is read, written and synced by
lock = threading.Lock()


@functools.cache
def built():
    folder = tempfile.mkdtemp(prefix="kilntaupe-calls-")
    atexit.register(shutil.rmtree, folder, ignore_errors=True)
    library = f"{folder}/fail_calls.so"
    try:
        made = subprocess.run(["cc", "-O1", "-Wall", "-Werror", "-shared", "-fPIC", "-o", library, SOURCE], capture_output=True, text=True)
    except FileNotFoundError:
        sys.exit("failing devices: there is no C compiler `cc` on the path, which builds checks/fail_calls.c")
    if made.returncode != 0:
        sys.exit(f"failing devices: cc doesn't build {SOURCE}:\n{made.stderr}")
    return library


def environment(**asked):
    """The environment of a program whose calls go through the library, which is asked this."""
    with lock:
        library = built()
    return {**os.environ, "LD_PRELOAD": library, **{name: str(value) for name, value in asked.items()}}


def calls_in(path):
    """The recorded calls, each a list of words: its name, the file's, place, length, and what else was told of it."""
    try:
        return [line.split() for line in pathlib.Path(path).read_text().splitlines()]
    except FileNotFoundError:
        return []


def calls_of(program, words, script, folder):
    """The calls of a run on a copy of this store that nothing fails in."""
    with tempfile.TemporaryDirectory(prefix="kilntaupe-calls-") as room:
        store, told = f"{room}/store", f"{room}/calls"
        shutil.copytree(folder, store)
        environ = environment(CALLS=told, UNSYNCED=1)
        subprocess.run([program, *words, "--store", store], input=script, stdout=subprocess.DEVNULL, stderr=subprocess.DEVNULL, env=environ, timeout=120)
        return calls_in(told)


def cut_at(script, event, repos):
    """The script with the events before this one (a number from 1, or `end`), behind which all repositories are stopped, and the
    kind of this event."""
    front, word, schedule = script.decode().partition("\nschedule")
    tokens = schedule.split()
    before = tokens if event == "end" else tokens[: int(event) - 1]
    kind = "end" if event == "end" else tokens[int(event) - 1][0]
    stops = [f"x{repo}.0" for repo in range(repos)]
    return f"{front}\nschedule {' '.join(before + stops)}\n".encode(), kind


def calls_from(program, run, folder, event):
    """The calls of a run from the beginning of an event on, those before it, and the event's kind.

    What is the same, call by call, where the run goes on and where all its repositories are stopped and then restarted, came
    before the event."""
    words = run.words
    whole = calls_of(program, words, run.script, folder)
    if event == "open":
        return whole, [], "open"
    repos = int(words[words.index("--repos") + 1]) if "--repos" in words else 1
    script, kind = cut_at(run.script, event, repos)
    stopped = calls_of(program, words, script, folder)
    at = next((i for i, (one, other) in enumerate(zip(whole, stopped)) if one != other), min(len(whole), len(stopped)))
    return whole[at:], whole[:at], kind


def failing_call(calls, before, kind, line):
    """What FAIL_CALL is to say for a line `fail R.D EVENT K` or `failfrom R.D EVENT K`; None where it means no call on a file."""
    how, place, _, number = line
    repo, disk = place.split(".")
    file = f"{repo[1:]}.backup.{ENDS[int(disk)]}" if repo[0] == "b" else f"{repo}.{ENDS[int(disk)]}"
    names = ("statx", *CALLS) if kind == "open" else CALLS
    made = [call for call in calls if call[1] == file and call[0] in names]
    # (a log's length is known since it was opened, and a restart keeps the open files: these are no calls)
    at = int(number) - 1 - (kind in "kc" and disk != "2" or kind == "c")
    if not 0 <= at < len(made):
        return None
    name = made[at][0]
    first = 1 + sum(call[:2] == [name, file] for call in before) + sum(call[0] == name for call in made[:at])
    return f"{file}:{name}:{first}:{'each' if how == 'failfrom' else 'lost' if name == 'fdatasync' else 'once'}"


def asked_of(program, run, folder):
    """What the library is to be asked for the parts of a run, with the words and the script of the run; None where no run shows
    them.

    A log's length, which a checkpoint asks for first, is failed by a stop in the schedule. `play` counts its clock itself. So a
    run with another clock is one by `run`, which does the same where there is one client and no schedule."""
    clocks = [line for line in run.parts if line[0] == "clock"]
    faults = [line for line in run.parts if line[0] != "clock"]
    if faults and (clocks or len(faults) > 1):
        return None
    if faults:
        calls, before, kind = calls_from(program, run, folder, faults[0][2])
        call = failing_call(calls, before, kind, faults[0])
        how, place, event, number = faults[0]
        if call is None and (how, kind, number) == ("fail", "k", "1") and place[0] != "b":
            front, word, schedule = run.script.decode().partition("\nschedule")
            tokens = schedule.split()
            tokens.insert(int(event) - 1, f"x{place[0]}.1")
            return {}, run.words, f"{front}{word} {' '.join(tokens)}\n".encode()
        return call and ({"FAIL_CALL": call}, run.words, run.script)
    if len(clocks) > 1 or b"\nschedule" in run.script or b"client 2" in run.script:
        return None
    told = ",".join(clocks[0][3:]) if clocks[0][2] == "list" else f"{clocks[0][3]}+1"
    return {"CLOCK": told}, ["run", *run.words[1:]], run.script
