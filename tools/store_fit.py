"""Whether what the files of a store hold fits together, as an opening looks at it: docs/FORMATS.md, "Whether a store is damaged".

What is wrong is told as `Wrong`s of store_files, each with the file and the byte. The rules of the language aren't tried here:
of the texts of classes and upgrades only their declarations are read.
"""
import dataclasses
import re

from store_files import Name, Place, Wrong, file_name

WORD = re.compile(r'"[ !#-~]{0,32}"|[A-Za-z][A-Za-z0-9_]{0,31}|[0-9]+|==|!=|[{}();,.=<+*-]')
CLASS_END = 1 << 16


@dataclasses.dataclass
class Class:
    name: str
    kind: str  # free or part; of an upgrade's class empty
    fields: list  # pairs of a type and a name
    methods: list  # the words in front of each body


class Words:
    """The words of a stored text, one space between two."""

    def __init__(self, text):
        self.text, self.words, at = text, [], 0
        while at < len(text.words):
            found = WORD.match(text.words, at)
            behind = found.end() if found else at
            if not found or text.words[behind : behind + 1] not in ("", " "):
                raise Wrong(text.place.behind(behind), f"here no word of the language stands, and no space: {text.words[behind : behind + 8]!r}")
            self.words.append((found[0], text.place.behind(at)))
            at = behind + 1
        self.read = 0

    def here(self):
        return self.words[self.read][1] if self.read < len(self.words) else self.text.place.behind(len(self.text.words))

    def next(self):
        return self.words[self.read][0] if self.read < len(self.words) else ""

    def take(self, *fits):
        """The next word, which is one of these where some are given."""
        word = self.next()
        if fits and word not in fits or not word:
            raise Wrong(self.here(), f"here stands `{word}`, where the text of a class has {' or '.join(f'`{it}`' for it in fits) or 'a word more'}")
        self.read += 1
        return word

    def name(self):
        if not self.next()[:1].isalpha():
            raise Wrong(self.here(), f"here stands `{self.next()}`, where the text of a class has a name")
        return self.take()

    def body(self):
        """Goes behind the brace that closes the one which is next."""
        self.take("{")
        depth = 1
        while depth:
            depth += {"{": 1, "}": -1}.get(self.take(), 0)

    def class_behind(self, kind):
        self.take("class")
        found = Class(self.name(), kind, [], [])
        self.take("{")
        while self.next() not in ("method", "}"):
            found.fields.append((self.name(), self.name()))
            while self.take() != ";":  # (an upgrade's field has its value here)
                pass
        while self.take("method", "}") == "method":
            begin = self.read
            while self.next() not in ("{", ""):
                self.read += 1
            found.methods.append(signature([word for word, _ in self.words[begin : self.read]]))
            self.body()
        return found


def signature(words):
    """A method's result, name and parameters as one writes them."""
    return re.sub(r" ?([(),]) ?", r"\1", " ".join(words)).replace(",", ", ")


def classes_of(text):
    """The classes that a text declares, in their order."""
    words, found = Words(text), []
    while words.next():
        found.append(words.class_behind(words.take("free", "part")))
    return found


def upgrade_of(text):
    """The classes that the text of an upgrade gives anew, by name."""
    words, found = Words(text), {}
    words.take("upgrade")
    words.take("{")
    while words.next() != "}":
        one = words.class_behind("")
        found[one.name] = one
    words.take("}")
    return found


class Schemas:
    """The classes of each epoch: at first, and behind each upgrade."""

    def __init__(self, classes, upgrades):
        self.changed = [set()]  # the numbers of the classes that each epoch changed
        self.epochs = [classes_of(classes)]
        for text in upgrades:
            anew = upgrade_of(text)
            missing = set(anew) - {it.name for it in self.epochs[-1]}
            if missing:
                raise Wrong(text.place, f"the upgrade names a class {min(missing)}, which isn't there")
            self.epochs.append([dataclasses.replace(anew.get(it.name, it), kind=it.kind) for it in self.epochs[-1]])
            self.changed.append({n for n, it in enumerate(self.epochs[-1]) if it.name in anew})
        self.number = {it.name: n for n, it in enumerate(self.epochs[0])}
        self.last = len(upgrades)

    def fields(self, obj):
        """The fields of an object, as its class was when it was written; None where there is no such class."""
        classes = self.epochs[obj.version] if obj.version <= self.last else []
        return classes[obj.number].fields if obj.number < len(classes) else None

    def name(self, number):
        return self.epochs[0][number].name if number < len(self.epochs[0]) else f"class {number}"

    def is_part(self, number):
        return number < len(self.epochs[0]) and self.epochs[0][number].kind == "part"

    def level(self, obj):
        """The greatest epoch by which no upgrade has changed the object since it was written."""
        due = (epoch - 1 for epoch in range(obj.version + 1, self.last + 1) if obj.number in self.changed[epoch])
        return next(due, self.last)


def head_of(repository):
    """The beginning of the log that counts."""
    return Place(file_name(repository.number, repository.log.disk), 0)


def numbers(store):
    """Repositories whose number, or number of repositories, isn't what their files say, or that have no log."""
    for it in store.repositories:
        if it.state is None:
            if it.log is None and it.number < store.first.repos:
                yield Wrong(Place(file_name(it.number, 0), 0), "no log of this repository has an open header")
        elif it.state.repo != it.number:
            yield Wrong(it.state.place.behind(1), f"these are the files of repository {it.state.repo}, and they stand as those of {it.number}")
        elif it.state.repos != store.first.repos:
            yield Wrong(it.state.place.behind(2), f"it says that there are {it.state.repos} repositories, and repository 0 that there are {store.first.repos}")
        elif it.number >= store.first.repos:
            yield Wrong(head_of(it), f"repository 0 says that there are {store.first.repos} repositories, and here is one more")
    there = {it.number for it in store.repositories}
    for number in range(store.first.repos):
        if number not in there:
            yield Wrong(Place(file_name(number, 0), 0), "the file isn't there")


def whole(store):
    return [it for it in store.repositories if it.state]


def unlike(store):
    """Repositories whose classes, roots or upgrades aren't those of repository 0."""
    first, *others = whole(store)
    for it in others:
        for what in ("classes", "roots", "upgrades"):
            said = getattr(it.state, what) if what == "roots" else words_of(store, it, what)
            if said != (getattr(first.state, what) if what == "roots" else words_of(store, first, what)):
                yield Wrong(head_of(it), f"its {what} aren't those of repository 0")


def words_of(store, repository, what):
    """The words of its classes, or of its upgrades with those that its coordinator decided to commit."""
    if what == "classes":
        return [repository.state.classes.words]
    taken = [it.text.words for _, it in sorted(repository.state.prepared.items()) if it.kind == "upgrade" and store.keeps(it.stamp)]
    return [it.words for it in repository.state.upgrades] + taken


def transactions(store):
    """Prepared requests without a coordinator, decisions and last transactions above the threshold."""
    for it in whole(store):
        for stamp, request in it.state.prepared.items():
            if stamp.repo >= store.first.repos:
                yield Wrong(request.place, f"transaction {stamp} is prepared, and there is no repository {stamp.repo} to decide it")
            if stamp in it.state.kept:
                yield Wrong(request.place, f"transaction {stamp} is prepared here, where the decision to commit it is kept")
        threshold = settled_threshold(store, it.state)
        for what, stamp in [("the kept decision", it) for it in sorted(it.state.kept)] + [("the last transaction of a client", it) for it in it.state.alone.values()]:
            if stamp > threshold:
                yield Wrong(head_of(it), f"{what} {stamp} is above the threshold {threshold}")


def settled_threshold(store, state):
    """The threshold of a repository, once what its coordinators decided to commit is taken as committed."""
    found = state.threshold
    for stamp, request in sorted(state.prepared.items()):
        if store.keeps(stamp):
            found = stamp if request.kind == "upgrade" else max(found, stamp)
    return found


def own_names(store):
    """Names of another repository, or on a page that isn't granted yet."""
    for it in whole(store):
        requests = [*it.state.prepared.values(), *(record.request for record in it.records if record.request)]
        written = [pair for request in requests for pair in request.writes]
        for name, obj in [*it.state.buffer.items(), *written]:
            if name.repo != it.number:
                yield Wrong(obj.place, f"object {name} is of another repository than {it.number}")
        named = [*it.state.buffer.items(), *((Name(it.number, page, slot), obj) for page, slots in it.pages.items() for slot, obj in slots.items())]
        for name, obj in named:
            if name.page >= it.state.next_page:
                yield Wrong(obj.place, f"object {name} stands on page {name.page}, and the next page to be granted is {it.state.next_page}")


def kinds(objects, schemas):
    """Objects that aren't of their class, and references that lead nowhere or to another class."""
    for name, obj in objects.items():
        fields = schemas.fields(obj)
        if obj.version > schemas.last:
            yield Wrong(obj.place.behind(2), f"object {name} is of version {obj.version}, and the store has {schemas.last} upgrades")
        elif fields is None:
            yield Wrong(obj.place, f"object {name} is of class {obj.number}, and there are {len(schemas.epochs[0])} classes")
        elif len(fields) != len(obj.values):
            yield Wrong(obj.place.behind(6), f"object {name} has {len(obj.values)} values, and its class {schemas.name(obj.number)} has {len(fields)} fields in version {obj.version}")
        else:
            for (kind, field), value, place in zip(fields, obj.values, obj.places):
                why = misfit(objects, schemas, kind, value)
                if why:
                    yield Wrong(place, f"field {field} of object {name}, {schemas.name(obj.number)}, {why}")


def misfit(objects, schemas, kind, value):
    """Why a value isn't one of a field's type; None where it is."""
    if kind == "int":
        return None if isinstance(value, int) else f"is {said(value)}, and has to be an int"
    if kind == "text" and kind not in schemas.number:
        return None if isinstance(value, str) else f"is {said(value)}, and has to be a text"
    if isinstance(value, int):
        return f"is the int {value}, and has to be of class {kind}"
    if isinstance(value, str):
        return f"is {said(value)}, and has to be of class {kind}"
    if value is None:
        return None
    if value not in objects:
        return f"refers to {value}, and there is no such object"
    found = schemas.name(objects[value].number)
    return None if found == kind else f"refers to {value}, which is of class {found} and has to be of class {kind}"


def said(value):
    return "null" if value is None else f"the object {value}" if isinstance(value, Name) else f'the text "{value}"' if isinstance(value, str) else f"{value}"


def namings(objects, schemas):
    """By which fields each object is named: its owner, the place, and whether the field is one of parts in its repository."""
    found = {}
    for name, obj in objects.items():
        for (kind, _), value, place in zip(schemas.fields(obj) or [], obj.values, obj.places):
            if isinstance(value, Name):
                owned = schemas.is_part(schemas.number.get(kind, CLASS_END)) and value.repo == name.repo
                found.setdefault(value, []).append((name, place, owned))
    return found


def owners(objects, schemas):
    """Parts with more than one owner, with one that isn't allowed, below themselves, or newer than one of their owners."""
    named = namings(objects, schemas)
    owner = {name: by[0][0] for name, by in named.items() if len(by) == 1 and by[0][2]}
    for name, obj in objects.items():
        by = named.get(name, [])
        if not schemas.is_part(obj.number) or obj.version > schemas.last:
            continue
        if len(by) > 1:
            yield from (Wrong(place, f"part {name} is named here by {one}, and {len(by) - 1} times besides: a part has one owner") for one, place, _ in by)
        elif by and not by[0][2]:
            yield Wrong(by[0][1], f"part {name} is named here by {by[0][0]}, which can't own it: of another repository, or by a field that isn't one of parts")
        else:
            why = owner_chain(name, obj, owner, objects, schemas)
            if why:
                yield Wrong(obj.place, why)


def owner_chain(name, obj, owner, objects, schemas):
    """What is wrong with the owners of a part, from one to the next; or None."""
    at, seen = owner.get(name), {name}
    while at:
        if at in seen:
            return f"part {name} is below itself: from owner to owner {at} comes again"
        seen.add(at)
        if at in objects and objects[at].version <= schemas.last and schemas.level(objects[at]) < obj.version:
            return f"part {name} is of version {obj.version}, and its owner {at} hasn't reached that"
        at = owner.get(at)
    return None


def roots(store, objects, schemas):
    for name, number, oref in store.first.roots:
        obj = objects.get(oref)
        if schemas.is_part(number) or not obj or obj.number != number:
            why = "isn't there" if not obj else f"is of class {schemas.name(obj.number)}"
            yield Wrong(head_of(store.repositories[0]), f"root {name} is the object {oref} of the free class {schemas.name(number)}, and that {why}")


def faults(store):
    """What is wrong with a store, besides what was met when its files were read. It may be told of a store that moves, too."""
    if not store.first:
        return []
    found = [*numbers(store), *unlike(store), *transactions(store), *own_names(store)]
    try:
        schemas = Schemas(store.first.classes, store.upgrades())
    except Wrong as wrong:
        return [*found, wrong]
    objects = store.joined()
    return [*found, *kinds(objects, schemas), *owners(objects, schemas), *roots(store, objects, schemas)]
