"""Reads what the files of a store hold, from outside. docs/FORMATS.md tells their bytes.

Files are opened for reading alone, and the store's lock isn't taken: this works beside a running program, too. What is wrong
with the bytes is told with the file and the place in it, and reading goes on behind it where that can be.
"""
import dataclasses
import os
import pathlib
import typing

OPEN = 1  # a gate: any other byte is closed
MAGIC, FORMAT = b"TP", 2  # a page's first bytes; the format of a page and of a checkpoint, as they are written
SIZES = {1: 4_096, 2: 16_384}  # the bytes of a page, by the format that its store's checkpoint has
PAGE_BYTES = SIZES[FORMAT]
TEXT_BYTES = 32  # of a text
SLOTS = 12  # of a page
PAGES = 65_536  # of a repository
REPOSITORIES = 8
FIELDS = 32  # of an object
END = 1 << 62  # of times, sequences and counts of entries
LOGS, PAGE_DISK = (0, 1), 2
RECORDS = {1: "Life", 2: "One", 3: "Prepared", 4: "Decided", 5: "Finished", 6: "Installed", 7: "Upgraded"}
KINDS = {0: "item", 1: "transform", 2: "upgrade"}
FAULTS = {1: "NullCall", 2: "Steps", 3: "Depth", 4: "Large"}
LOOKS = 20  # how often a store is read again that a program moves meanwhile


class Name(typing.NamedTuple):
    """The name of an object."""

    repo: int
    page: int
    slot: int

    def __str__(self):
        return f"{self.repo}.{self.page}.{self.slot}"


class Stamp(typing.NamedTuple):
    """A timestamp, which is the name of a transaction as well."""

    time: int
    repo: int
    life: int

    def __str__(self):
        return f"{self.time}.{self.repo}.{self.life}"


class Place(typing.NamedTuple):
    """A byte of a file of the store, counted from 0."""

    file: str
    at: int

    def __str__(self):
        return f"{self.file} at byte {self.at}"

    def behind(self, count):
        return Place(self.file, self.at + count)


class Wrong(Exception):
    """What is wrong with the bytes at a place."""

    def __init__(self, place, why):
        super().__init__(f"{place}: {why}")
        self.place, self.why = place, why


@dataclasses.dataclass
class Text:
    """A text as it is stored, and where its first byte stands."""

    words: str
    place: Place


@dataclasses.dataclass
class Object:
    number: int  # of its class
    version: int  # how many upgrades there were when it was written
    values: list  # each an int, a Name, a str for a text, or None for null
    place: Place
    places: list  # where each value begins
    bytes: bytes = b""


@dataclasses.dataclass
class Request:
    stamp: Stamp
    client: int
    index: int
    session: int
    kind: str  # one of KINDS
    text: Text  # of an upgrade, else None
    epoch: int
    upto: int
    reads: list
    writes: list  # pairs of a Name and an Object
    fresh: list
    answer: list  # the printed ints; None where it ended in a fault
    fault: str
    others: list  # repositories
    place: Place
    raw: bytes = b""


@dataclasses.dataclass
class Record:
    """A record of a log. Which of the last fields it has is told by its kind."""

    kind: str  # one of RECORDS
    gate: Place
    life: int = None
    request: Request = None
    stamp: Stamp = None
    commits: bool = None
    page: int = None
    side: int = None


@dataclasses.dataclass
class Log:
    """The frame of a log whose header is open."""

    disk: int
    sequence: int
    head: "Bytes"
    bodies: list  # pairs of a gate's place and the Bytes of the body
    end: int  # the place of the first gate that isn't open


class Bytes:
    """Bytes of a file, read from the front on."""

    def __init__(self, data, place):
        self.data, self.place, self.read = data, place, 0

    def here(self):
        return self.place.behind(self.read)

    def left(self):
        return len(self.data) - self.read

    def take(self, count, what):
        if self.left() < count:
            raise Wrong(self.here(), f"{what} takes {count} bytes, and {self.left()} are left")
        self.read += count
        return self.data[self.read - count : self.read]

    def number(self, width, what, end=None):
        """A number of so many bytes, which is below its end."""
        place = self.here()
        found = int.from_bytes(self.take(width, what), "big")
        if end is not None and found >= end:
            raise Wrong(place, f"{what} is {found}, and has to be below {end}")
        return found

    def one_of(self, names, what):
        """The word for which a byte stands."""
        place = self.here()
        byte = self.number(1, what)
        if byte not in names:
            raise Wrong(place, f"{what} is {byte:02x}, which is none")
        return names[byte]

    def flag(self, what):
        return self.one_of({0: False, 1: True}, what)

    def list(self, read, what):
        return [read() for _ in range(self.number(4, f"the count of {what}"))]

    def piece(self, count, what):
        """The next bytes, to be read by themselves."""
        place = self.here()
        return Bytes(self.take(count, what), place)

    def ended(self, what):
        if self.left():
            raise Wrong(self.here(), f"{what} has {self.left()} bytes more than it should")

    # ---- names, timestamps, values, objects

    def name(self):
        return Name(self.number(1, "a repository", REPOSITORIES), self.number(4, "a page", PAGES), self.number(1, "a slot", SLOTS))

    def stamp(self):
        return Stamp(self.number(8, "a time", END), self.number(1, "a repository", REPOSITORIES), self.number(4, "a life"))

    def signed(self):
        found = self.number(8, "an int")
        return found - (1 << 64) if found >> 63 else found

    def value(self):
        kind = self.one_of({1: "int", 2: "reference", 3: "null", 4: "text"}, "the kind of a value")
        if kind == "text":
            return self.words()
        return self.signed() if kind == "int" else self.name() if kind == "reference" else None

    def words(self):
        """A text that a field holds."""
        count, place = self.number(1, "the length of a text", TEXT_BYTES + 1), self.here()
        found = self.take(count, "a text")
        for at, byte in enumerate(found):
            if not 32 <= byte <= 126 or byte == 34:
                raise Wrong(place.behind(at), f"a text has the byte {byte:02x}, which none has")
        return found.decode("ascii")

    def object(self):
        place = self.here()
        number, version = self.number(2, "a class"), self.number(4, "a version")
        count = self.number(1, "the count of values", FIELDS + 1)
        found = Object(number, version, [], place, [])
        for _ in range(count):
            found.places.append(self.here())
            found.values.append(self.value())
        found.bytes = self.data[place.at - self.place.at : self.read]
        return found

    def pair(self):
        return self.name(), self.object()

    def text(self, what):
        length = self.number(4, f"the length of {what}")
        place = self.here()
        return Text(self.take(length, what).decode("latin-1"), place)

    # ---- requests and records

    def request(self):
        place = self.here()
        stamp, client, index, session = self.stamp(), self.number(1, "a client"), self.number(4, "an item"), self.number(4, "a session")
        kind = self.one_of(KINDS, "the kind of a request")
        text = self.text("an upgrade") if kind == "upgrade" else None
        epoch, upto = self.number(4, "an epoch"), self.number(8, "a place among messages")
        reads, writes = self.list(self.name, "names that were read"), self.list(self.pair, "objects that were written")
        fresh = self.list(self.name, "new names")
        answer, fault = self.answer()
        others = self.others()
        raw = self.data[place.at - self.place.at : self.read]
        return Request(stamp, client, index, session, kind, text, epoch, upto, reads, writes, fresh, answer, fault, others, place, raw)

    def answer(self):
        if self.one_of({0: False, 1: True}, "the kind of an answer"):
            return None, self.one_of(FAULTS, "a fault")
        return self.list(self.signed, "printed ints"), None

    def others(self):
        """The other participants, rising."""
        found = []
        for _ in range(self.number(1, "the count of participants")):
            place = self.here()
            found.append(self.number(1, "a participant"))
            if found[:-1] and found[-1] <= found[-2]:
                raise Wrong(place, f"participant {found[-1]} stands behind {found[-2]}: they have to rise")
        return found

    def record(self, gate):
        """The body of a record, whose gate stands there."""
        record = Record(self.one_of(RECORDS, "the kind of a record"), gate)
        if record.kind == "Life":
            record.life = self.number(4, "a life")
        elif record.kind in ("Decided", "Finished"):
            record.stamp, record.commits = self.stamp(), self.flag("whether it commits")
        elif record.kind == "Installed":
            record.page, record.side = self.number(4, "a page"), int(self.flag("a side"))
        else:
            record.request = self.request()
            record.stamp = record.request.stamp
        self.ended("the record")
        return record

    def checkpoint(self):
        return State(self)


def rise(keys, place, what):
    """Raises Wrong where keys of a list that begins at the place don't rise."""
    for one, other in zip(keys, keys[1:]):
        if not one < other:
            raise Wrong(place, f"{what} {other} stands behind {one}: they have to rise")


class State:
    """What a checkpoint, with the records that were put behind it, says of a repository."""

    def __init__(self, bytes_):
        place = bytes_.here()
        self.format = bytes_.number(1, "the format")
        if self.format not in SIZES:
            raise Wrong(place, f"a checkpoint's format is 1 or 2, and this one is {self.format}")
        self.place = place
        self.repo, self.repos = bytes_.number(1, "the repository"), bytes_.number(1, "the number of repositories")
        self.life, self.count = bytes_.number(4, "the life"), bytes_.number(8, "the count of entries", END)
        self.threshold, self.next_page = bytes_.stamp(), bytes_.number(4, "the next page", PAGES + 1)
        self.classes = bytes_.text("the classes")
        self.roots = bytes_.list(lambda: (bytes_.text("a root's name").words, bytes_.number(2, "a root's class"), bytes_.name()), "roots")
        self.upgrades = bytes_.list(lambda: bytes_.text("an upgrade"), "upgrades")
        self.read_objects(bytes_)
        self.read_transactions(bytes_)
        bytes_.ended("the checkpoint")

    def read_objects(self, bytes_):
        place = bytes_.here()
        installed = bytes_.list(lambda: (bytes_.number(4, "an installed page"), int(bytes_.flag("a side"))), "installed pages")
        rise([page for page, _ in installed], place, "page")
        place = bytes_.here()
        buffered = bytes_.list(bytes_.pair, "buffered objects")
        self.sides, self.buffer = dict(installed), dict(buffered)
        if len(self.buffer) < len(buffered):
            raise Wrong(place, "a name stands twice among the buffered objects")

    def read_transactions(self, bytes_):
        place = bytes_.here()
        prepared = bytes_.list(bytes_.request, "prepared requests")
        rise([it.stamp for it in prepared], place, "prepared")
        place = bytes_.here()
        kept = bytes_.list(bytes_.stamp, "kept decisions")
        rise(kept, place, "decision")
        place = bytes_.here()
        alone = bytes_.list(lambda: (bytes_.number(1, "a client"), bytes_.stamp()), "last transactions")
        rise([client for client, _ in alone], place, "client")
        self.prepared, self.kept, self.alone = {it.stamp: it for it in prepared}, set(kept), dict(alone)

    def enter(self, record):
        """Puts a record behind the state. The answer is the request that commits by it, or None."""
        self.count += record.kind != "Installed"
        if record.kind == "Life":
            self.life = record.life
            self.prepared = {stamp: it for stamp, it in self.prepared.items() if stamp.repo != self.repo}
        elif record.kind == "Installed":
            self.sides[record.page] = record.side
            for slot in range(SLOTS):
                self.buffer.pop(Name(self.repo, record.page, slot), None)
        elif record.kind in ("Decided", "Finished"):
            return self.decide(record)
        else:
            self.next_page = max([self.next_page, *(name.page + 1 for name, _ in record.request.writes)])
            if record.kind != "Prepared":
                self.alone[record.request.client] = record.stamp
                return self.commit(record.request)
            self.kept.discard(record.stamp)
            self.prepared[record.stamp] = record.request
        return None

    def decide(self, record):
        request = self.prepared.pop(record.stamp, None)
        if record.kind == "Decided" and record.commits:
            self.kept.add(record.stamp)
        return self.commit(request) if request and record.commits else None

    def commit(self, request):
        self.buffer.update(request.writes)
        if request.kind == "upgrade":
            self.upgrades.append(request.text)
            self.threshold = request.stamp
        else:
            self.threshold = max(self.threshold, request.stamp)
        return request


# ---- files


def log_of(data, file, disk):
    """The frame of a log; None where its header isn't open."""
    if len(data) < 2 or data[0] != OPEN:
        return None
    bytes_ = Bytes(data, Place(file, 0))
    bytes_.take(1, "a gate")
    sequence, head = bytes_.number(8, "the sequence"), bytes_.piece(bytes_.number(4, "the length of the checkpoint"), "the checkpoint")
    bodies = list(bodies_behind(bytes_))
    return Log(disk, sequence, head, bodies, bytes_.here().at - 1)


def bodies_behind(bytes_):
    """The records from a gate on, up to the first gate that isn't open: pairs of a gate's place and the Bytes of a body."""
    while True:
        gate = bytes_.here()
        if bytes_.number(1, "the gate behind the last record") != OPEN:
            return
        yield gate, bytes_.piece(bytes_.number(4, "the length of a record"), "a record")


def page_place(page, side, format=FORMAT):
    """Where a side of a page begins in its file, in a store of this format."""
    return (2 * page + side) * SIZES[format]


def page_of(data, file, page, side, tell, format=FORMAT):
    """The objects of a page by slot; what is wrong is told, as a Wrong."""
    bytes_ = Bytes(data, Place(file, page_place(page, side, format)))
    found, before = {}, -1
    try:
        count = page_head(bytes_, page, format)
        for _ in range(count):
            place = bytes_.here()
            slot, length = bytes_.number(1, "a slot", SLOTS), bytes_.number(2, "the length of an object")
            if slot <= before:
                raise Wrong(place, f"slot {slot} stands behind slot {before}: they have to rise")
            before = slot
            take_object(bytes_.piece(length, "an object"), found, slot, tell)
        rest = bytes_.here()
        other = bytes_.take(bytes_.left(), "zeros").lstrip(b"\0")
        if other:
            raise Wrong(Place(file, page_place(page, side, format) + SIZES[format] - len(other)), f"behind the objects of page {page}, from byte {rest.at} on, all bytes have to be zeros, and this one is {other[0]:02x}")
    except Wrong as wrong:
        tell(wrong)
    return found


def page_head(bytes_, page, format):
    """The count of objects of a page."""
    place = bytes_.here()
    if bytes_.take(SIZES[format], "a page")[:3] != MAGIC + bytes([format]):
        raise Wrong(place, f"a page begins with 54 50 0{format} in this store, and this one, page {page}, with {bytes_.data[:3].hex(' ')}")
    bytes_.read = 3
    count, place = bytes_.number(1, "the count of objects"), bytes_.here()
    number = bytes_.number(4, "the page's number")
    if number != page:
        raise Wrong(place, f"page {page} stands here, and it says that it is page {number}")
    return count


def take_object(bytes_, found, slot, tell):
    try:
        found[slot] = bytes_.object()
        bytes_.ended("the object")
    except Wrong as wrong:
        tell(wrong)


def file_name(number, disk):
    return f"{number}.pages" if disk == PAGE_DISK else f"{number}.log{disk}"


def logs_of(folder, number, tell):
    """The two logs of a repository, each None where its header isn't open or its frame is wrong; and the bytes of their files."""
    logs, sizes = [], []
    for disk in LOGS:
        try:
            data = (folder / file_name(number, disk)).read_bytes()
            sizes.append(len(data))
            logs.append(log_of(data, file_name(number, disk), disk))
        except FileNotFoundError:
            sizes.append(None)
            logs.append(None)
        except Wrong as wrong:
            tell(wrong)
            logs.append(None)
    return logs, sizes


def counting(logs):
    """The log that counts: that of the greater sequence, and where they are equal the first; None where there is none."""
    return max((it for it in logs if it), key=lambda it: (it.sequence, -it.disk), default=None)


class Repository:
    """A repository as its files have it. `state` is None where no log counts, or its checkpoint can't be read."""

    def __init__(self, folder, number, tell):
        self.folder, self.number, self.tell = folder, number, tell
        self.state, self.records, self.commits, self.pages = None, [], [], {}  # (commits: each Record by which a Request commits, with that)
        self.logs, self.sizes = logs_of(folder, number, tell)
        self.log = counting(self.logs)
        if self.log:
            self.replay()
        if self.state:
            self.read_pages()

    def replay(self):
        """The checkpoint, and each record behind it that can be read."""
        if self.log.sequence >= END:
            self.tell(Wrong(Place(file_name(self.number, self.log.disk), 1), f"the sequence is {self.log.sequence}, and has to be below {END}"))
        try:
            self.state = self.log.head.checkpoint()
        except Wrong as wrong:
            self.tell(wrong)
        for gate, body in self.log.bodies:
            try:
                self.enter(body.record(gate))
            except Wrong as wrong:
                self.tell(wrong)

    def enter(self, record):
        self.records.append(record)
        if self.state and record.kind == "Prepared" and record.stamp in self.state.kept:
            self.tell(Wrong(record.gate, f"transaction {record.stamp} is prepared by this record, and the decision to commit it is kept by then"))
        request = self.state and self.state.enter(record)
        if request:
            self.commits.append((record, request))

    def read_pages(self):
        """The sides in use of the installed pages."""
        name = file_name(self.number, PAGE_DISK)
        try:
            with open(self.folder / name, "rb") as file:
                self.sizes.append(os.fstat(file.fileno()).st_size)
                for page, side in sorted(self.state.sides.items()):
                    file.seek(page_place(page, side, self.state.format))
                    self.pages[page] = page_of(file.read(SIZES[self.state.format]), name, page, side, self.tell, self.state.format)
        except FileNotFoundError:
            self.sizes.append(None)
            if self.state.sides:
                self.tell(Wrong(Place(name, 0), f"the file isn't there, and {len(self.state.sides)} pages are installed"))

    def objects(self):
        """The objects of its pages, with those of its buffer over them."""
        paged = {Name(self.number, page, slot): it for page, slots in self.pages.items() for slot, it in slots.items()}
        return {**paged, **self.state.buffer} if self.state else paged

    def news(self):
        """What came since into the log that was read: the bodies of its records; None where another log counts by now."""
        now = counting(logs_of(self.folder, self.number, lambda wrong: None)[0])
        if not now or not self.log:
            return [] if now is self.log else None
        return now.bodies[len(self.log.bodies) :] if (now.disk, now.sequence) == (self.log.disk, self.log.sequence) else None

    def is_torn(self):
        """Whether a page may have been written over while it was read."""
        news = self.news()
        return news is None or any(RECORDS.get(body.data[0] if body.data else 0) == "Installed" for _, body in news)


class Store:
    """A store as its files have it. `faults` are Wrongs, in the order of files and places."""

    def __init__(self, folder):
        self.folder = pathlib.Path(folder)
        self.read()
        for _ in range(LOOKS):
            self.is_moving = any(it.news() != [] for it in self.repositories)
            if not self.is_moving:
                break
            self.read()
        self.first = next((it.state for it in self.repositories if it.number == 0), None)

    def read(self):
        self.faults, self.repositories = [], []
        for number in range(REPOSITORIES):
            if any((self.folder / file_name(number, disk)).exists() for disk in (*LOGS, PAGE_DISK)):
                self.repositories.append(self.repository(number))
        with_log = [it.number for it in self.repositories if it.log]
        if with_log and with_log[0] != 0:
            self.faults.append(Wrong(Place(file_name(0, 0), 0), f"no log of repository 0 has an open header, and repository {with_log[0]} has one: the program would make a new store here"))

    def repository(self, number):
        """A repository, read again where its pages moved meanwhile."""
        for _ in range(LOOKS):
            faults = []
            found = Repository(self.folder, number, faults.append)
            if not found.is_torn():
                break
        self.faults += faults
        return found

    def keeps(self, stamp):
        """Whether the coordinator of a transaction keeps the decision to commit it."""
        return any(it.number == stamp.repo and it.state and stamp in it.state.kept for it in self.repositories)

    def joined(self):
        """The objects of all repositories, as an opening takes them: with what is prepared where its coordinator decided to commit it."""
        found = {}
        for it in self.repositories:
            found.update(it.objects())
        for it in self.repositories:
            for request in it.state.prepared.values() if it.state else ():
                if self.keeps(request.stamp):
                    found.update(request.writes)
        return found

    def upgrades(self):
        """The texts of the store's upgrades, as an opening takes them from its first repository."""
        taken = [it.text for _, it in sorted(self.first.prepared.items()) if it.kind == "upgrade" and self.keeps(it.stamp)] if self.first else []
        return [*self.first.upgrades, *taken] if self.first else []

    def user(self):
        """The number of the process that has the store in use; 0 where it isn't known, None where there is none."""
        try:
            node = os.stat(self.folder / "lock").st_ino
            locks = [line.split() for line in pathlib.Path("/proc/locks").read_text().splitlines()]
        except OSError:
            return None
        found = [int(words[4]) for words in locks if words[1] != "->" and words[5].rpartition(":")[2] == str(node)]
        return max(0, found[0]) if found else None
