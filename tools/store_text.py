"""Tells what store_files reads as lines for people."""
import collections

import store_fit
from store_files import FORMAT, Wrong, file_name

PLURALS = {"repository": "repositories", "entry": "entries"}


def plural(count, what):
    return f"{count} {what if count == 1 else PLURALS.get(what, what + 's')}"


def joined(words):
    return " ".join(str(it) for it in words)


# ---- lines of records and of commits


def answer_of(request):
    """How a request ended, as in a report's history."""
    return f"! {request.fault}" if request.fault else joined([":", *request.answer])


def history_line(request, upgrade):
    """A commit as a report's history has it. `upgrade` is the number of an upgrade."""
    who = f"{request.stamp} {request.client}.{request.index}"
    if request.kind == "upgrade":
        return f"{who} upgrade {upgrade}"
    made = f" new {joined(request.fresh)}" if request.fresh and not request.fault else ""
    return f"{who}{made} {answer_of(request)}"


def record_line(record):
    if record.kind == "Life":
        return f"Life {record.life}"
    if record.kind == "Installed":
        return f"Installed page {record.page} side {record.side}"
    if record.kind in ("Decided", "Finished"):
        return f"{record.kind} {record.stamp} {'commit' if record.commits else 'abort'}"
    return f"{record.kind} {request_line(record.request)}"


def request_line(request):
    parts = [f"{request.stamp} {request.kind} {request.client}.{request.index}"]
    lists = {"reads": request.reads, "writes": [name for name, _ in request.writes], "new": request.fresh, "with": request.others}
    parts += [f"{what} {joined(names)}" for what, names in lists.items() if names]
    return joined([*parts, answer_of(request)])


# ---- the whole of a store


class View:
    """A store with its classes, by which its objects are told."""

    def __init__(self, store):
        self.store, self.first = store, store.first
        try:
            self.schemas = store_fit.Schemas(self.first.classes, store.upgrades())
        except Wrong as wrong:
            self.schemas = None
            store.faults.append(wrong)
        self.objects = store.joined()
        self.roots = {name: word for word, _, name in self.first.roots}

    def class_name(self, number):
        return self.schemas.name(number) if self.schemas else f"class {number}"

    def fields(self, obj):
        """The names and values of an object's fields; without a class that fits, their numbers stand for names."""
        known = self.schemas.fields(obj) if self.schemas else None
        names = [name for _, name in known] if known and len(known) == len(obj.values) else [str(n) for n in range(len(obj.values))]
        return list(zip(names, obj.values))

    def by_class(self):
        found = collections.defaultdict(list)
        for name in sorted(self.objects):
            found[self.objects[name].number].append(name)
        return sorted(found.items())


def is_buffered(obj):
    return not obj.place.file.endswith(".pages")


def value_text(value):
    return "null" if value is None else f'"{value}"' if isinstance(value, str) else str(value)


def object_line(view, name):
    obj = view.objects[name]
    root = f" {view.roots[name]}" if name in view.roots else ""
    old = f" version {obj.version}" if view.schemas and obj.version < view.schemas.last and view.schemas.level(obj) < view.schemas.last else ""
    fields = ", ".join(f"{field} {value_text(value)}" for field, value in view.fields(obj))
    return f"{name}{root}{old}: {fields}{' (buffered)' if is_buffered(obj) else ''}"


def repository_lines(repository):
    state, log = repository.state, repository.log
    yield f"repository {repository.number}: life {state.life}, {plural(state.count, 'entry')}, threshold {state.threshold}, next page {state.next_page}"
    kinds = collections.Counter(it.kind for it in repository.records)
    counted = ", ".join(f"{count} {kind}" for kind, count in sorted(kinds.items()))
    size = repository.sizes[log.disk]
    yield f"    {file_name(repository.number, log.disk)}: sequence {log.sequence}, {plural(len(repository.records), 'record')}{f' ({counted})' if counted else ''}, ends at byte {log.end} of {size}"
    other = repository.logs[1 - log.disk]
    yield f"    {file_name(repository.number, 1 - log.disk)}: {f'sequence {other.sequence}, the log before' if other else 'no log'}"
    paged = sum(len(it) for it in repository.pages.values())
    if state.format != FORMAT:
        yield "    of the older format: the next opening moves it into the newer one"
    yield f"    {plural(len(repository.pages), 'page')} with {plural(paged, 'object')}; {plural(len(state.buffer), 'object')} buffered; {plural(len(state.kept), 'decision')} kept"


def prepared_lines(store):
    for repository in store.repositories:
        for stamp, request in repository.state.prepared.items() if repository.state else ():
            decided = "its coordinator decided to commit it" if store.keeps(stamp) else "its coordinator keeps no decision to commit it"
            yield f"    repository {repository.number}: {request_line(request)} ({decided})"


def class_lines(view):
    for number, one in enumerate(view.schemas.epochs[-1]):
        fields = "".join(f" {kind} {name};" for kind, name in one.fields)
        yield f"    {one.kind} class {one.name} {{{fields} }}"
        yield from (f"        {it}" for it in one.methods)


def upgrade_lines(view):
    for number, text in enumerate(view.store.upgrades(), 1):
        names = sorted(view.schemas.changed[number]) if view.schemas else []
        yield f"    {number} of {', '.join(view.class_name(it) for it in names)}"


def in_use(store):
    user = store.user()
    return "" if user is None else f", in use by process {user}" if user else ", in use"


def overview(store):
    """What a store holds, as lines."""
    view = View(store)
    yield f"store {store.folder}: {plural(store.first.repos, 'repository')}{in_use(store)}"
    if store.is_moving:
        yield "    it moves while it is read: repositories may stand at different moments"
    for it in store.repositories:
        yield from repository_lines(it) if it.state else [f"repository {it.number}: no log that can be read"]
    parts = {
        "prepared": prepared_lines(store), "classes": class_lines(view) if view.schemas else (), "upgrades": upgrade_lines(view),
        "roots": (f"    {word} = {name} of {view.class_name(number)}" for word, number, name in view.first.roots),
    }  # fmt: skip
    for heading, lines in parts.items():
        lines = list(lines)
        yield from [f"{heading}:", *lines] if lines else ()
    yield f"objects: {len(view.objects)}"
    for number, names in view.by_class():
        yield f"    {view.class_name(number)}: {len(names)}"
        yield from (f"        {object_line(view, name)}" for name in names)


def log_lines(store):
    for it in store.repositories:
        if it.log:
            yield f"{file_name(it.number, it.log.disk)}: sequence {it.log.sequence}"
            yield from (f"    {record.gate.at} {record_line(record)}" for record in it.records)
