"""Follows the logs of a store while a program writes them."""
from store_files import END, OPEN, Bytes, Place, Repository, State, Wrong, bodies_behind, file_name, log_of
from store_text import history_line


def silent(wrong):
    """A log is read while it is written: what seems wrong then is read again at the next look."""


class Follower:
    """What commits at a repository, from a moment on."""

    def __init__(self, folder, number):
        self.folder, self.number = folder, number
        found = Repository(folder, number, silent)
        self.log, self.state = found.log, found.state

    def news(self):
        """What committed here since the last look, each as a line of a report's history. Transforms aren't told."""
        if not self.state:
            return self.anew(-1)
        lines = self.behind()
        following = self.sequence(1 - self.log.disk)
        if following is None or following < self.log.sequence:
            return lines
        if following == self.log.sequence + 1:
            lines += self.behind()  # (what came between the first look and the checkpoint)
        else:
            lines.append(f"# repository {self.number}: more than one checkpoint was made, and what committed before the last isn't told")
        return lines + self.anew(1 - self.log.disk)

    def path(self, disk):
        return self.folder / file_name(self.number, disk)

    def sequence(self, disk):
        """The sequence of a log; None where its header isn't open."""
        try:
            with open(self.path(disk), "rb") as file:
                head = file.read(9)
        except OSError:
            return None
        found = int.from_bytes(head[1:], "big")
        return found if len(head) == 9 and head[0] == OPEN and found < END else None

    def behind(self):
        """What committed by records behind those that are known, in the same log."""
        with open(self.path(self.log.disk), "rb") as file:
            file.seek(self.log.end)
            bytes_ = Bytes(file.read(), Place(file_name(self.number, self.log.disk), self.log.end))
        try:
            bodies = list(bodies_behind(bytes_))
        except Wrong:
            return []
        if self.sequence(self.log.disk) != self.log.sequence:
            return []  # (it was written over meanwhile)
        self.log.end = bytes_.here().at - 1
        return self.entered(bodies)

    def anew(self, disk):
        """Begins with the log on a disk, or with that which counts; what committed behind its checkpoint is told."""
        try:
            found = log_of(self.path(disk).read_bytes(), file_name(self.number, disk), disk) if disk >= 0 else Repository(self.folder, self.number, silent).log
            if found:
                self.log, self.state = found, State(Bytes(found.head.data, found.head.place))
                return self.entered(found.bodies)
        except Wrong:
            pass
        return []

    def entered(self, bodies):
        """Puts records behind the state. The answer has a line for each that commits a transaction which began here."""
        lines = []
        for gate, body in bodies:
            request = self.state.enter(Bytes(body.data, body.place).record(gate))
            if request and request.kind != "transform" and request.stamp.repo == self.number:
                lines.append(history_line(request, request.epoch + 1))
        return lines
