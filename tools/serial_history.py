"""Judges whether a report is true of a script, from the definitions alone: docs/LANGUAGE.md (what a transaction and an upgrade
do), docs/SERIAL.md (the serial history) and docs/REPORT.md (the report, and which line of it first disagrees). It asks no program.

    judged(source) == (status, output)      of a script that breaks no rule, byte 30 and a report

Scripts are read without any check of their rules.
"""
import dataclasses
import functools
import re

TOKEN = re.compile(rb'//[^\n]*|[ \t\r\n]+|("[^"\n]*"|[A-Za-z][A-Za-z0-9_]*|[0-9]+|==|!=|.)', re.S)
STEPS, CALLS, READ, CREATED = 100_000, 64, 1_024, 64  # of one transaction, at most
DIVIDER = b"\x1e"


class Fault(Exception):
    """A transaction ends with this fault."""


class Undefined(Exception):
    """The names of the new objects aren't those that the transaction takes."""


# ---- scripts


@dataclasses.dataclass
class Class:
    fields: list  # (type, name)
    methods: dict  # name -> (type, parameters as (type, name), block)


@dataclasses.dataclass
class Change:
    """What an upgrade makes of a class: its fields with their values, and its methods."""

    fields: list  # (type, name, value)
    methods: dict


@dataclasses.dataclass
class Script:
    classes: dict
    roots: list  # (name, class, repository)
    clients: list  # lists of ("tx", block) and ("upgrade", {class: Change})


class Reader:
    """Reads a script from its tokens. A tree is a tuple: its kind and its parts."""

    def __init__(self, text):
        self.words = [found[1].decode("latin1") for found in TOKEN.finditer(text) if found[1] is not None]
        self.at = 0

    def sees(self, *words):
        return self.at < len(self.words) and self.words[self.at] in words

    def sees_text(self):
        return self.at < len(self.words) and self.words[self.at].startswith('"')

    def take(self, word=None):
        found = self.words[self.at]
        assert word in (None, found), (word, found)
        self.at += 1
        return found

    def takes(self, word):
        if self.sees(word):
            self.at += 1
            return True
        return False

    def many(self, end, read):
        """What stands up to a word, which is taken."""
        found = []
        while not self.takes(end):
            found.append(read())
        return found

    def script(self):
        classes, roots, clients = {}, [], []
        if self.takes("setup"):
            while self.sees("free", "part"):
                self.take()
                name, made = self.declared()
                classes[name] = made
            while self.takes("root"):
                roots.append(self.root())
        while self.takes("client"):
            self.take()
            clients.append([])
            while self.sees("tx", "upgrade"):
                clients[-1].append(self.item())
        return Script(classes, roots, clients)

    def declared(self):
        self.take("class")
        name = self.take()
        self.take("{")
        fields, methods = [], {}
        while not self.takes("}"):
            if self.sees("method"):
                methods.update([self.method()])
            else:
                fields.append((self.take(), self.take()))
                self.take(";")
        return name, Class(fields, methods)

    def method(self):
        self.take("method")
        result, name = self.take(), self.take()
        self.take("(")
        parameters = []
        while not self.takes(")"):
            self.takes(",")
            parameters.append((self.take(), self.take()))
        return name, (result, parameters, self.block())

    def root(self):
        name = self.take()
        self.take("=")
        self.take("new")
        of = self.take()
        self.take("(")
        self.take(")")
        repo = int(self.take()) if self.takes("at") else 0
        self.take(";")
        return name, of, repo

    def item(self):
        if self.take() == "tx":
            return "tx", self.block()
        self.take("{")
        return "upgrade", dict(self.many("}", self.change))

    def change(self):
        self.take("class")
        name = self.take()
        self.take("{")
        fields, methods = [], {}
        while not self.takes("}"):
            if self.sees("method"):
                methods.update([self.method()])
            else:
                kind, field = self.take(), self.take()
                self.take("=")
                fields.append((kind, field, self.given()))
                self.take(";")
        return name, Change(fields, methods)

    def given(self):
        if self.takes("null"):
            return ("null",)
        if self.sees_text():
            return "text", self.take()[1:-1]
        return self.chain(("+", "-"), lambda: self.chain(("*",), self.signed))

    def chain(self, operators, read):
        found = read()
        while self.sees(*operators):
            found = ("binary", self.take(), found, read())
        return found

    def signed(self):
        if self.takes("-"):
            return "minus", self.signed()
        if self.takes("("):
            found = self.given()
            self.take(")")
            return "round", found
        if self.takes("old"):
            path = []
            while self.takes("."):
                path.append(self.take())
            return "path", tuple(path)
        return "number", int(self.take())

    def block(self):
        self.take("{")
        return self.many("}", self.statement)

    def statement(self):
        if self.sees("if", "while"):
            kind = self.take()
            self.take("(")
            test = self.expression()
            self.take(")")
            block = self.block()
            return kind, test, block, self.block() if kind == "if" and self.takes("else") else []
        if self.takes("var"):
            self.take()
            name = self.take()
            self.take("=")
            found = "local", name, self.expression()
        elif self.sees("return", "print"):
            found = self.take(), self.expression()
        elif self.sees("this") and self.words[self.at + 1] == "." and self.words[self.at + 3] == "=":
            name = self.words[self.at + 2]
            self.at += 4
            found = "field", name, self.expression()
        elif self.words[self.at + 1] == "=":
            name = self.take()
            self.take("=")
            found = "local", name, self.expression()
        else:
            found = "alone", self.expression()
        self.take(";")
        return found

    def expression(self):
        found = self.sum()
        if self.sees("==", "!=", "<"):
            return "binary", self.take(), found, self.sum()
        return found

    def sum(self):
        return self.chain(("+", "-"), lambda: self.chain(("*",), self.unary))

    def unary(self):
        if self.takes("-"):
            return "minus", self.unary()
        found = self.primary()
        while self.sees("."):
            self.take()
            name = self.take()
            self.take("(")
            arguments = []
            while not self.takes(")"):
                self.takes(",")
                arguments.append(self.expression())
            found = "call", found, name, tuple(arguments)
        return found

    def primary(self):
        if self.sees_text():
            return "text", self.take()[1:-1]
        word = self.take()
        if word.isdigit():
            return "number", int(word)
        if word == "(":
            found = self.expression()
            self.take(")")
            return "round", found
        if word == "new":
            name = self.take()
            self.take("(")
            self.take(")")
            return "new", name, int(self.take()) if self.takes("at") else None
        if word == "this" and self.sees(".") and self.words[self.at + 2] != "(":
            self.take()
            return "own", self.take()
        return {"null": ("null",), "this": ("this",)}.get(word, ("name", word))


# ---- stores


@dataclasses.dataclass
class Store:
    classes: dict
    objects: dict  # name -> (class, {field: value}); a value is an int, a text, a name (a tuple) or None
    roots: dict
    epoch: int = 0


def begins(kind, classes):
    """The first value of a field. Where a class has the name `text`, this is its type."""
    if kind == "text" and "text" not in classes:
        return ""
    return 0 if kind == "int" else None


def printed(value):
    """The ints that printing a value adds to the answer: of a text how many bytes it has, and then these."""
    return [len(value), *map(ord, value)] if isinstance(value, str) else [value]


def opened(script):
    objects, roots, counts = {}, {}, {}
    for name, of, repo in script.roots:
        count = counts[repo] = counts.get(repo, 0) + 1
        roots[name] = repo, (count - 1) // 12, (count - 1) % 12
        objects[roots[name]] = of, {field: begins(kind, script.classes) for kind, field in script.classes[of].fields}
    return Store(dict(script.classes), objects, roots)


def wrapped(number):
    return (number + 2**63) % 2**64 - 2**63


def combined(operator, left, right):
    match operator:
        case "+":
            return wrapped(left + right)
        case "-":
            return wrapped(left - right)
        case "*":
            return wrapped(left * right)
        case "<":
            return int(left < right)
        case "==":
            return int(left == right)
        case "!=":
            return int(left != right)


class Returned(Exception):
    pass


class Run:
    """One transaction on a store, whose new objects take these names."""

    def __init__(self, store, names):
        self.store, self.names, self.taken, self.stand_ins = store, names, 0, 0
        self.written, self.created, self.read = {}, set(), set()
        self.steps, self.calls, self.printed = 0, 0, []

    def step(self):
        self.steps += 1
        if self.steps > STEPS:
            raise Fault("Steps")

    def object(self, name):
        return self.written.get(name) or self.store.objects[name]

    def run(self, block):
        self.block(block, None, {})
        if self.stand_ins or self.taken != len(self.names):
            raise Undefined
        return self.printed

    def block(self, block, this, names):
        for statement in block:
            self.statement(statement, this, names)

    def statement(self, statement, this, names):
        kind = statement[0]
        if kind == "while":
            while self.tested(statement[1], this, names):
                self.block(statement[2], this, names)
            return
        self.step()
        match kind:
            case "if":
                self.block(statement[2] if self.value(statement[1], this, names) else statement[3], this, names)
            case "local":
                names[statement[1]] = self.value(statement[2], this, names)
            case "field":
                value = self.value(statement[2], this, names)
                of, fields = self.object(this)
                self.written[this] = of, {**fields, statement[1]: value}
            case "return":
                raise Returned(self.value(statement[1], this, names))
            case "print":
                self.printed += printed(self.value(statement[1], this, names))
            case "alone":
                self.value(statement[1], this, names)

    def tested(self, test, this, names):
        self.step()
        return self.value(test, this, names)

    def value(self, tree, this, names):
        self.step()
        match tree:
            case "number" | "text", value:
                return value
            case "null",:
                return None
            case "this",:
                return this
            case "own", field:
                return self.object(this)[1][field]
            case "name", name:
                return names[name] if name in names else self.store.roots[name]
            case "round", part:
                return self.value(part, this, names)
            case "minus", part:
                return wrapped(-self.value(part, this, names))
            case "binary", operator, left, right:
                return combined(operator, self.value(left, this, names), self.value(right, this, names))
            case "new", of, at:
                return self.made(of, at if this is None else this[0])
            case "call", receiver, method, arguments:
                target = self.value(receiver, this, names)
                return self.called(target, method, [self.value(it, this, names) for it in arguments])

    def made(self, of, repo):
        if len(self.created) == CREATED:
            raise Fault("Large")
        if self.taken < len(self.names):
            name = self.names[self.taken]
            if name[0] != (repo or 0):
                raise Undefined
            self.taken += 1
        else:
            name = 255, 0, self.stand_ins
            self.stand_ins += 1
        self.created.add(name)
        self.written[name] = of, {field: begins(kind, self.store.classes) for kind, field in self.store.classes[of].fields}
        return name

    def called(self, target, method, arguments):
        if target is None:
            raise Fault("NullCall")
        if self.calls == CALLS:
            raise Fault("Depth")
        if target not in self.created and target not in self.read:
            if len(self.read) == READ:
                raise Fault("Large")
            self.read.add(target)
        result, parameters, block = self.store.classes[self.object(target)[0]].methods[method]
        self.calls += 1
        try:
            self.block(block, target, {name: value for (_, name), value in zip(parameters, arguments)})
            return begins(result, self.store.classes)
        except Returned as returned:
            return returned.args[0]
        finally:
            self.calls -= 1


def worth(tree, objects, fields):
    """The value of a field behind an upgrade, by the object's fields before it."""
    match tree:
        case "null",:
            return None
        case "number" | "text", value:
            return value
        case "round", part:
            return worth(part, objects, fields)
        case "minus", part:
            return wrapped(-worth(part, objects, fields))
        case "binary", operator, left, right:
            return combined(operator, worth(left, objects, fields), worth(right, objects, fields))
        case "path", path:
            for field in path[:-1]:
                name = fields[field]
                if name is None:
                    return 0
                fields = objects[name][1]
            return fields[path[-1]]


def upgraded(store, changes):
    classes, objects = dict(store.classes), {}
    for name, change in changes.items():
        classes[name] = Class([(kind, field) for kind, field, _ in change.fields], change.methods)
    for name, (of, fields) in store.objects.items():
        if of in changes:
            fields = {field: worth(value, store.objects, fields) for _, field, value in changes[of].fields}
        objects[name] = of, fields
    return Store(classes, objects, store.roots, store.epoch + 1)


# ---- reports


@dataclasses.dataclass
class Line:
    ts: tuple
    who: tuple
    number: int = 0
    fresh: tuple = ()
    answer: object = ()  # printed values, or the name of a fault


@dataclasses.dataclass
class Item:
    who: tuple
    kind: str
    ts: tuple = None
    number: int = 0
    answer: object = ()


NUMBER = rb"(0|[1-9][0-9]*)"
TS, WHO = rb"%s\.%s\.%s" % ((NUMBER,) * 3), rb"%s\.%s" % ((NUMBER,) * 2)
FAULTS = rb"(NullCall|Steps|Depth|Large)"
VALUES = rb"((?: (?:0|-?[1-9][0-9]*))*)"
ANY = rb"(?:0|[1-9][0-9]*)"
U8, U32, U64 = 2**8, 2**32, 2**64
WIDE = {"ts": (U64, U8, U32), "who": (U8, U32), "oref": (U8, U32, U8)}
PLACE, PAIR = (*WIDE["oref"], U64), (*WIDE["ts"], *WIDE["oref"])
CAUSES = {
    b"Stale": PLACE, b"Earlier": PAIR, b"Later": PAIR, b"TooOld": WIDE["ts"], b"Blocked": WIDE["ts"], b"Missing": WIDE["oref"],
    b"Epoch": (U32,), b"Gone": (U32,), b"Full": (U32,), b"Down": (U8,), b"ClockEnd": (), b"Calls": (),
}  # the numbers of each, with their limits
SHAPES = {PLACE: "o n", PAIR: "t o", WIDE["ts"]: "t", WIDE["oref"]: "o", (U32,): "n", (U8,): "n", (): ""}


def numbers(words, kind):
    """Numbers of a kind, or `None` where one is too great."""
    found = tuple(int(word) for word in words)
    return found if all(number < limit for number, limit in zip(found, WIDE[kind])) else None


def values(text):
    found = tuple(int(word) for word in text.split())
    return found if all(-(2**63) <= value < 2**63 for value in found) else None


def fits(*parts):
    return all(part is not None for part in parts)


def is_cause(text):
    word, _, rest = text.partition(b" ")
    if word not in CAUSES:
        return False
    shape = {"o": rb"%s\.%s\.%s" % ((NUMBER,) * 3), "t": TS, "n": NUMBER}
    found = re.fullmatch(rb" ".join(shape[part] for part in SHAPES[CAUSES[word]].split()), rest)
    return bool(found) and (bool(rest) or text == word) and all(int(it) < limit for it, limit in zip(found.groups(), CAUSES[word]))


def item_of(line):
    """What the line of an item tells, or `None`. Causes and tries are read and not told."""
    head = re.fullmatch(WHO + rb" (Done|Faulted|Refused|Unknown) (.*)", line)
    who = head and numbers(head.groups()[:2], "who")
    if not who:
        return None
    kind, rest = head[3].decode(), head[4]
    if found := kind == "Done" and re.fullmatch(TS + rb" try %s :%s" % (NUMBER, VALUES), rest):
        ts, answer = numbers(found.groups()[:3], "ts"), values(found[5])
        return Item(who, kind, ts, 0, answer) if fits(ts, answer) and int(found[4]) < U32 else None
    if found := kind == "Done" and re.fullmatch(TS + rb" try %s upgrade %s" % (NUMBER, NUMBER), rest):
        ts = numbers(found.groups()[:3], "ts")
        return Item(who, "Upgraded", ts, int(found[5])) if fits(ts) and max(int(found[4]), int(found[5])) < U32 else None
    if found := kind == "Faulted" and re.fullmatch(FAULTS + rb" %s try %s" % (TS, NUMBER), rest):
        ts = numbers(found.groups()[1:4], "ts")
        return Item(who, kind, ts, 0, found[1].decode()) if fits(ts) and int(found[5]) < U32 else None
    if found := kind == "Refused" and re.fullmatch(rb"(.*) try " + NUMBER, rest):
        return Item(who, kind) if is_cause(found[1]) and int(found[2]) < U32 else None
    if found := kind == "Unknown" and re.fullmatch(TS, rest):
        ts = numbers(found.groups(), "ts")
        return Item(who, kind, ts) if ts else None
    return None


def line_of(line):
    """What a line of the history tells, or `None`."""
    head = re.fullmatch(TS + rb" " + WHO + rb"((?: new(?: %s\.%s\.%s)+)?)( :.*| ! .*| upgrade .*)" % ((ANY,) * 3), line, re.S)
    ts, who = (numbers(head.groups()[:3], "ts"), numbers(head.groups()[3:5], "who")) if head else (None, None)
    if not (ts and who):
        return None
    fresh, rest = tuple(numbers(name.split(b"."), "oref") for name in head[6].split()[1:]), head[7]
    if not all(fresh):
        return None
    if found := re.fullmatch(rb" :" + VALUES, rest):
        return Line(ts, who, 0, fresh, values(found[1])) if values(found[1]) is not None else None
    if found := not fresh and re.fullmatch(rb" ! " + FAULTS, rest):
        return Line(ts, who, 0, (), found[1].decode())
    if found := not fresh and re.fullmatch(rb" upgrade ([1-9][0-9]*)", rest):
        return Line(ts, who, int(found[1])) if int(found[1]) < U32 else None
    return None


def read_report(text):
    """The lines of items and of the history; or the number of the line with which no report goes on."""
    lines, items, history = text.split(b"\n"), [], []
    whole = len(lines) - 1  # those that end in a newline
    at = 0
    while at < whole and (found := item_of(lines[at])):
        items.append(found)
        at += 1
    if at < whole and lines[at] == b"history":
        at += 1
        while at < whole and (found := line_of(lines[at])):
            history.append(found)
            at += 1
        if at < whole and lines[at] == b"end %d" % len(history):
            at += 1
            if at == whole and not lines[at]:
                return items, history
    return min(at + 1, max(1, whole + bool(lines[-1])))


# ---- the judge


class Illegal(Exception):
    """A line of the history isn't legal at its place, for this reason."""


def named(numbers):
    return ".".join(f"{it}" for it in numbers)


def answered(answer, new=()):
    """An answer as a line of the history tells it."""
    names = " new" + "".join(f" {named(name)}" for name in new) if new else ""
    return f"{names.strip()} ! {answer}".strip() if isinstance(answer, str) else f"{names} :{''.join(f' {it}' for it in answer)}".strip()


class Placed(Run):
    """A run whose new objects have names of their own, in the repositories where it makes them."""

    def __init__(self, store):
        super().__init__(store, ())
        self.homes = []

    def made(self, of, repo):
        if len(self.created) == CREATED:
            raise Fault("Large")
        self.homes.append(repo or 0)
        name = repo or 0, "new", len(self.homes)
        self.created.add(name)
        self.written[name] = of, {field: begins(kind, self.store.classes) for kind, field in self.store.classes[of].fields}
        return name


def answer_there(store, block):
    """What a transaction answers on a store, and in which repositories it makes objects."""
    run = Placed(store)
    try:
        run.block(block, None, {})
    except Fault as fault:
        return fault.args[0], []
    return tuple(run.printed), run.homes


def done_upgrade(script, store, line, changes):
    upgrades = [tree for items in script.clients for kind, tree in items if kind == "upgrade"]
    if line.number != store.epoch + 1 or line.fresh or line.answer != ():
        raise Illegal(f"it is an upgrade, and the number of the next one here is {store.epoch + 1}")
    if line.number > len(upgrades) or upgrades[line.number - 1] != changes:
        raise Illegal(f"upgrade {line.number} of the script is another one")
    return upgraded(store, changes)


def done_transaction(store, line, block):
    if line.number:
        raise Illegal("it is a transaction, and no upgrade")
    for place, name in enumerate(line.fresh):
        if name in line.fresh[:place]:
            raise Illegal(f"the name {named(name)} stands there twice")
        if name in store.objects:
            raise Illegal(f"an object has the name {named(name)} already")
    run = Run(store, line.fresh)
    try:
        answer = tuple(run.run(block))
        after = Store(store.classes, {**store.objects, **run.written}, store.roots, store.epoch)
    except Fault as fault:
        answer, after = fault.args[0], store
    except Undefined:
        answer, after = None, None
    if after is None or answer != line.answer or isinstance(answer, str) and line.fresh:
        wanted, homes = answer_there(store, block)
        makes = f", and makes {len(homes)} objects, in the repositories {', '.join(map(str, homes))}" if len(homes) != len(line.fresh) or after is None and homes else ""
        raise Illegal(f"at this place the transaction answers `{answered(wanted)}`{makes}")
    return after


def done(script, store, line):
    """The store behind a line of the history."""
    client, index = line.who
    if not (1 <= client <= len(script.clients) and 1 <= index <= len(script.clients[client - 1])):
        raise Illegal(f"the script has no item {named(line.who)}")
    kind, tree = script.clients[client - 1][index - 1]
    return done_upgrade(script, store, line, tree) if kind == "upgrade" else done_transaction(store, line, tree)


def said(line):
    """A line of the history, as it stands there."""
    told = f"upgrade {line.number}" if line.number else answered(line.answer, line.fresh)
    return f"{named(line.ts)} {named(line.who)} {told}"


def says(line, item):
    """Whether an item's line says what the line of its entry, or `None`, does."""
    if line is None:
        return item.kind in ("Refused", "Unknown")
    match item.kind:
        case "Done" | "Faulted":
            return (line.ts, line.number, line.answer) == (item.ts, 0, item.answer)
        case "Upgraded":
            return (line.ts, line.number, line.answer) == (item.ts, item.number, ()) and item.number > 0
        case "Unknown":
            return line.ts == item.ts
    return False


@functools.lru_cache(maxsize=8)
def read_script(text):
    return Reader(text).script()


def wrong_entry(script, history):
    """The place of the first line of the history that isn't legal, and why; or `None`."""
    store, before = opened(script), None
    for place, line in enumerate(history):
        if before is not None and not before < line.ts:
            return place, f"its timestamp isn't above {named(before)}, that of the line before it"
        try:
            store = done(script, store, line)
        except Illegal as illegal:
            return place, illegal.args[0]
        before = line.ts
    return None


def wrong_item(script, items, history):
    """The place of the first line of an item that is wrong, and why; or `None`."""
    wanted = [(client + 1, index + 1) for client, own in enumerate(script.clients) for index in range(len(own))]
    places, latest = {}, {}
    for place, line in enumerate(history):
        places.setdefault(line.who, []).append(place)
    for place, who in enumerate(wanted):
        if place == len(items):
            return place, f"the line of item {named(who)} is missing"
        item, found, last = items[place], places.get(who, []), latest.get(who[0], (-1, None))
        if item.who != who:
            return place, f"the line of item {named(who)} should stand here"
        if len(found) > 1:
            return place, f"the history has it more than once, in its lines {', '.join(str(it + 1) for it in found)}"
        if not says(history[found[0]] if found else None, item):
            return place, f"the history says of it, in its line {found[0] + 1}, `{said(history[found[0]])}`" if found else "the history doesn't have it"
        if found and found[0] < last[0]:
            return place, f"the history has it before {named(last[1])}, an earlier item of the same client"
        latest[who[0]] = max(last, (found[0], who)) if found else last
    return (len(wanted), "the script has no further item") if len(items) > len(wanted) else None


def first_disagreement(script, items, history):
    """Where a report first disagrees, as `entry` or `item`, the number of the line there, and why; or `None`."""
    for kind, found in (("entry", wrong_entry(script, history)), ("item", None)):
        found = found or kind == "item" and wrong_item(script, items, history)
        if found:
            return kind, found[0] + 1, found[1]
    return None


def judged(source):
    """The status and the output of an audit of a script that breaks no rule, byte 30 and a report."""
    text, divider, report = source.partition(DIVIDER)
    read = read_report(report) if divider else 1
    if isinstance(read, int):
        return 10, b"report %d\n" % read
    where = first_disagreement(read_script(text), *read)
    return (11, f"{where[0]} {where[1]}\n".encode()) if where else (0, b"legal\n")
