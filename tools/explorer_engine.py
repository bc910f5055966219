"""The program of crates/explorer: how it is found, and how it is asked. Its README has the form of its lines."""
import os
import pathlib
import subprocess

TOP = pathlib.Path(__file__).resolve().parent.parent
BUILT = TOP / "crates/explorer/out/explorer"


class Unanswered(Exception):
    """The program ended without an answer to each schedule."""

    def __init__(self, status):
        super().__init__(f"the engine ended with status {status}")
        self.status = status


def path_of(given):
    """The path of the engine: the given one, or that of this checkout; None where it isn't built, or `none` is given."""
    if given is None:
        return str(BUILT) if os.access(BUILT, os.X_OK) else None
    return None if given == "none" else os.path.abspath(given)


def indented(text):
    """A script of which no line begins with the word `schedule`, by which the program finds the schedules."""
    return "".join(f" {line}\n" for line in text.splitlines())


def ask(command, script, schedules):
    """What the program writes of a script, which is indented, and of schedules, each a row of words."""
    text = script + "".join(f"schedule {' '.join(it)}\n" for it in schedules)
    ran = subprocess.run(command, input=text.encode(), stdout=subprocess.PIPE, stderr=subprocess.DEVNULL)
    if ran.returncode:
        raise Unanswered(ran.returncode)
    return ran.stdout.decode()


def report_of(line):
    """The status and the report that the line of a run has."""
    status, _, text = line.partition(" ")
    return int(status), text.replace(";", "\n")
