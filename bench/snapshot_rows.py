"""The bytes of a snapshot as a tree of rows, in both formats, and ways to damage one. Data for bench/fuzz_snapshots.py.

    state = snapshot_rows.read(bytes, 2)    the tree of a state; ValueError where the bytes are none
    snapshot_rows.spelled(state, 1)         its bytes in a format
    damaged(dice, state, 1)                 the bytes of a changed copy in a format, and the name of the change

What is read here has the grammar of a snapshot alone: whether its rows fit is asked of the definitions.
"""
import copy

LARGEST = 2**64 - 1
LAST_MOMENT = 4_000_000_000_000_000
BUILT_IN = (b"activity-end", b"timer", b"service-started", b"profile-added", b"profile-updated", b"profile-removed")
COUNTS = ("moment", "inputs", "next_entity", "next_activity", "next_timer", "next_event")
# The lists of a state, behind the counts.
SERVICES, ENTITIES, ACTIVITIES, LINKS, NAMES, TIMERS, ROWS = range(len(COUNTS), len(COUNTS) + 7)
# The places of what stands in a row.
FIRST, PARENT, ENDING, UNTIL = 0, 2, 2, 7
NUMBERED = {ENTITIES: "entity", ACTIVITIES: "activity", TIMERS: "timer"}
KINDS_OF_VALUES = 5
KINDS_OF_ACTIVITIES = ("external", "null", "of a service", "of a table")
MANY = 1000


class Number:
    """A number of so many bytes, and what it counts."""

    def __init__(self, value, size, role=""):
        self.value, self.size, self.role = value, size, role

    def bytes(self):
        return (self.value % 256**self.size).to_bytes(self.size, "little")


class Text:
    def __init__(self, value):
        self.value = value

    def bytes(self):
        return len(self.value).to_bytes(4, "little") + self.value


class Many:
    """Parts one after another: behind their count in eight bytes, behind a flag, or alone. A wrong count is another one."""

    def __init__(self, name, parts, front=0, count=None):
        self.name, self.parts, self.front, self.count = name, parts, front, count

    def bytes(self):
        count = len(self.parts) if self.count is None else self.count
        front = count.to_bytes(self.front, "little") if self.front else b""
        return front + b"".join(part.bytes() for part in self.parts)


LIST, OPTION, ALONE = 8, 1, 0


def row(name, *parts):
    return Many(name, list(parts), ALONE)


class Reader:
    """Reads a state from left to right."""

    def __init__(self, data, form):
        self.data, self.at, self.form = data, 0, form

    def taken(self, size):
        if size > len(self.data) - self.at:
            raise ValueError("the bytes end too early")
        self.at += size
        return self.data[self.at - size : self.at]

    def number(self, size=8, role=""):
        return Number(int.from_bytes(self.taken(size), "little"), size, role)

    def text(self):
        return Text(self.taken(self.number(4).value))

    def list(self, name, item):
        return Many(name, [item() for _ in range(self.number().value)], LIST)

    def option(self, name, item):
        flag = self.number(1).value
        if flag > 1:
            raise ValueError("a flag that is none")
        return Many(name, [item() for _ in range(flag)], OPTION)

    def value(self):
        tag = self.number(1, "tag")
        if tag.value >= KINDS_OF_VALUES:
            raise ValueError("a value of no type")
        flag, activity, timer = (lambda size=size, role=role: self.number(size, role) for size, role in ((1, "flag"), (8, "activity"), (8, "timer")))
        return row("value", tag, (self.number, self.text, flag, activity, timer)[tag.value]())

    def pairs(self):
        return self.list("pairs", lambda: row("pair", self.text(), self.value()))

    def service(self):
        return row("service", self.number(1, "state"), self.number(8, "activity"))

    def conv(self):
        return row(
            "conv",
            self.option("activity", lambda: self.number(8, "activity")),
            self.option("text", self.text),
            self.option("text", self.text),
            self.option("event", lambda: self.number(8, "event")),
            self.option("text", self.text),
        )

    def entity(self):
        number, block, parent = self.number(8, "entity"), self.text(), self.number(8, "entity")
        name = [] if parent.value else [1]
        return row("entity", number, block, parent, self.text(), self.number(1, "priority"), *[self.conv() for _ in name], self.pairs())

    def kind(self):
        tag = self.number(1, "tag")
        return row("kind", tag, *([] if tag.value == 1 else [self.text()]))

    def event(self):
        return row("event", self.number(8, "event"), self.text(), self.option("text", self.text), self.pairs())

    def activity(self):
        parts = [self.number(8, "activity"), self.kind(), self.number(1, "flag"), self.pairs(), self.list("events", self.event)]
        parts += [self.list("marks", lambda: self.number(4, "service")), self.list("delivered", lambda: self.number(8, "entity"))]
        until = self.option("until", lambda: self.number(8, "moment")) if self.form == 2 else Many("until", [], OPTION)
        return row("activity", *parts, until)

    def link(self):
        return row("link", self.number(8, "activity"), self.number(8, "entity"), self.list("masks", self.text))

    def timer(self):
        numbers = [self.number(8, role) for role in ("timer", "activity", "moment", "moment", "moment")]
        return row("timer", *numbers, self.number(1, "keep"))

    def state(self):
        counts = [self.number(8, role) for role in COUNTS]
        lists = [
            self.list("services", self.service),
            self.list("entities", self.entity),
            self.list("activities", self.activity),
            self.list("links", self.link),
            self.list("names", lambda: row("name", self.text(), self.number(8, "activity"))),
            self.list("timers", self.timer),
            self.list("rows", lambda: row("row", self.text(), self.text(), self.pairs())),
        ]
        state = row("state", *counts, *lists)
        if self.form == 1 and self.at < len(self.data):
            self.suspend(state, self.list("suspensions", lambda: row("suspension", self.number(8, "activity"), self.number(8, "moment"))))
        if self.at < len(self.data):
            raise ValueError("bytes are left")
        return state

    def suspend(self, state, suspensions):
        activities = {it.parts[FIRST].value: it for it in state.parts[ACTIVITIES].parts}
        for it in suspensions.parts:
            activities[it.parts[0].value].parts[UNTIL].parts = [it.parts[1]]


def read(data, form):
    return Reader(data, form).state()


def suspensions_of(state):
    """The list of suspensions that stands at the end in format 1."""
    rows = [row("suspension", it.parts[FIRST], until) for it in state.parts[ACTIVITIES].parts for until in it.parts[UNTIL].parts]
    return Many("suspensions", rows, LIST)


def spelled(state, form):
    if form == 2:
        return state.bytes()
    old = copy.deepcopy(state)
    for it in old.parts[ACTIVITIES].parts:
        it.parts[UNTIL] = row("nothing")
    suspensions = suspensions_of(state)
    return old.bytes() + (suspensions.bytes() if suspensions.parts else b"")


def parts_of(part, kind):
    """All parts of a kind in a tree."""
    if isinstance(part, kind):
        yield part
    if isinstance(part, Many):
        for it in part.parts:
            yield from parts_of(it, kind)


def numbers(state, role=None):
    return [it for it in parts_of(state, Number) if role in (None, it.role)]


def lists(state, least=0, front=(LIST,)):
    return [it for it in parts_of(state, Many) if it.front in front and len(it.parts) >= least]


def kinds(state):
    """What a state has any of: rows, options, and kinds of activities."""
    found = {it.name for it in lists(state, 1, (LIST, OPTION))}
    found |= {KINDS_OF_ACTIVITIES[it.parts[0].value] for it in parts_of(state, Many) if it.name == "kind"}
    found |= {"child" for it in state.parts[ENTITIES].parts if it.parts[PARENT].value}
    return found | {"ending" for it in state.parts[ACTIVITIES].parts if it.parts[ENDING].value}


def one(dice, found):
    """One of these; where there is none, nothing can be changed so."""
    if not found:
        raise LookupError
    return dice.choice(found)


def another_number(dice, state):
    it = one(dice, numbers(state))
    ends = [0, 1, 2, 256**it.size - 1, 256**it.size // 2, 256**it.size // 2 - 1, LAST_MOMENT, LAST_MOMENT + 1]
    near = [it.value + 1, it.value - 1, dice.choice(numbers(state)).value]
    it.value = dice.choice(near * 2 + ends) % 256**it.size


def another_count(dice, state):
    """A count or a next number at, past or near its end."""
    it = state.parts[dice.randrange(len(COUNTS))]
    it.value = dice.choice([0, 1, it.value + 1, it.value + dice.randrange(1000), max(it.value, 1) - 1, LAST_MOMENT, LAST_MOMENT + 1, LARGEST - 1, LARGEST])


def another_text(dice, state):
    texts = [it.value for it in parts_of(state, Text)]
    it = one(dice, list(parts_of(state, Text)))
    near = [it.value + b"a", it.value[:-1], it.value[1:], it.value.upper(), b"a" + it.value]
    it.value = dice.choice([*texts, *BUILT_IN, *near, b"", b"a", b"a" * 64, b"a" * 65, b"\xc3\xa9", b"\xff", it.value + b"\xc3"])


def dropped(dice, state):
    parts = one(dice, lists(state, 1)).parts
    del parts[dice.randrange(len(parts))]


def doubled(dice, state):
    parts = one(dice, lists(state, 1)).parts
    at = dice.randrange(len(parts))
    parts.insert(at, copy.deepcopy(parts[at]))


def exchanged(dice, state):
    parts = one(dice, lists(state, 2)).parts
    at = dice.randrange(len(parts) - 1)
    other = dice.choice([at + 1, dice.randrange(at + 1, len(parts))])
    parts[at], parts[other] = parts[other], parts[at]


def copied(dice, state):
    """An item of a list comes into another list of such items, at any place."""
    source = one(dice, lists(state, 1))
    goal = dice.choice([it for it in lists(state) if it.name == source.name])
    goal.parts.insert(dice.randrange(len(goal.parts) + 1), copy.deepcopy(dice.choice(source.parts)))


def turned(dice, state):
    """An option that has nothing gets something, or loses it."""
    it = one(dice, lists(state, front=(OPTION,)))
    if it.parts:
        it.parts = []
        return
    filled = [other.parts[0] for other in lists(state, 1, (OPTION,)) if other.name == it.name]
    fresh = Text(dice.choice([it.value for it in parts_of(state, Text)])) if it.name == "text" else Number(state.parts[0].value + dice.randrange(3), 8)
    it.parts = [copy.deepcopy(dice.choice(filled)) if filled and dice.randrange(2) else fresh]


def miscounted(dice, state):
    it = one(dice, lists(state))
    it.count = dice.choice([len(it.parts) + 1, max(len(it.parts), 1) - 1, LARGEST, 2**63, 2**32, 2**32 + len(it.parts), 2**61])


def misflagged(dice, state):
    it = one(dice, lists(state, front=(OPTION,)))
    it.count = dice.choice([1 - len(it.parts), 2, 255])


def second(dice, state):
    """Another entity, activity or timer of a number that is there, or another row of a name."""
    which = one(dice, [at for at in (ENTITIES, ACTIVITIES, TIMERS, NAMES, ROWS) if state.parts[at].parts])
    parts, key = state.parts[which].parts, 2 if which == ROWS else 1
    at = dice.randrange(len(parts))
    other = copy.deepcopy(dice.choice(parts))
    other.parts[:key] = copy.deepcopy(parts[at].parts[:key])
    parts.insert(at + dice.randrange(2), other)


def to_nothing(dice, state):
    """An attachment, a name, a timer, a service or a mark of what isn't there."""
    rows = [it for at in (LINKS, NAMES, TIMERS, SERVICES) for it in state.parts[at].parts]
    rows += [it for it in lists(state) if it.name == "delivered"]
    it = one(dice, [number for it in rows for number in parts_of(it, Number) if number.role in ("entity", "activity")])
    there = {number.value for number in numbers(state, it.role)}
    most = state.parts[COUNTS.index("next_" + it.role)].value
    it.value = dice.choice([n for n in range(1, min(most, MANY) + 2) if n not in there] + [most, LARGEST])


def raised(dice, state):
    """A child whose parent has its own number, or a greater one."""
    child = one(dice, [it for it in state.parts[ENTITIES].parts if it.parts[PARENT].value])
    others = [it.parts[FIRST].value for it in state.parts[ENTITIES].parts if it.parts[FIRST].value >= child.parts[FIRST].value]
    child.parts[PARENT].value = dice.choice([*others, child.parts[FIRST].value + 1, LARGEST])


def moved_below(dice, state):
    """A child below another parent that may be one."""
    child = one(dice, [it for it in state.parts[ENTITIES].parts if it.parts[PARENT].value])
    others = [it.parts[FIRST].value for it in state.parts[ENTITIES].parts if it.parts[FIRST].value < child.parts[FIRST].value]
    child.parts[PARENT].value = one(dice, others)


def nameless(dice, state):
    """A name of no bytes, of too many, or of none that is one."""
    named = state.parts[NAMES].parts + state.parts[ROWS].parts + [it.parts[1] for it in state.parts[ACTIVITIES].parts]
    it = one(dice, [text for it in named for text in it.parts if isinstance(text, Text)])
    it.value = dice.choice([b"", b"\xff", b"A", b"1", b"a" * 65, b"a" * 64, b"a b"])


def renumbered(dice, state):
    """The last of a kind gets a greater number wherever it stands, and the next one is above it, or isn't."""
    at, role = one(dice, [(at, role) for at, role in NUMBERED.items() if state.parts[at].parts])
    old = state.parts[at].parts[-1].parts[FIRST].value
    new = dice.choice([old + 1, old + dice.randrange(1, 2**40), 2**32, 2**63, LARGEST - 1, LARGEST])
    for it in numbers(state, role):
        it.value = new if it.value == old else it.value
    state.parts[COUNTS.index("next_" + role)].value = min(LARGEST, new + dice.choice([1, 1, 1, 0]))


def renamed(dice, state):
    """A text is another one wherever it stands."""
    old = one(dice, [it.value for it in parts_of(state, Text)])
    new = dice.choice([old + b"a", b"a" + old, old[:-1], b"zz", b"\xc3\xa9"])
    for it in parts_of(state, Text):
        it.value = new if it.value == old else it.value


def revalued(dice, state):
    """A value of a field, an attribute, an event or a row: another of its type, or of another type."""
    it = one(dice, [it for it in parts_of(state, Many) if it.name == "value"])
    tag, what = it.parts
    if dice.randrange(4) == 0:
        tag.value = dice.randrange(KINDS_OF_VALUES + 1)
    elif isinstance(what, Text):
        what.value = dice.choice([b"", b"other", b"\xc3\xa9", what.value * 2, b"a" * 5000])
    else:
        what.value = dice.choice([0, 1, 2, what.value + 1, LARGEST, 2**63]) % 256**what.size


def timed(dice, state):
    """A timer of another moment, period or number of times."""
    it = one(dice, state.parts[TIMERS].parts)
    for number in it.parts[2:5]:
        if dice.randrange(2):
            number.value = dice.choice([0, 1, number.value + 1, LAST_MOMENT, LAST_MOMENT + 1, LARGEST])


def suspended(dice, state):
    """An activity is suspended, until a moment at or near the ends."""
    it = one(dice, state.parts[ACTIVITIES].parts)
    clock = state.parts[0].value
    it.parts[UNTIL].parts = [Number(dice.choice([0, clock, clock + 1, clock + 5, LAST_MOMENT, LAST_MOMENT + 1, LARGEST]) % 2**64, 8, "moment")]


def cleared(dice, state):
    """A list has nothing any longer."""
    one(dice, lists(state, 1)).parts = []


CHANGES = (
    another_number, another_count, another_text, dropped, doubled, exchanged, copied, turned, miscounted, misflagged, second, to_nothing, raised,
    moved_below, nameless, renumbered, renamed, revalued, timed, suspended, cleared,
)


def changed(dice, state):
    """A changed copy of a state, and the name of the change."""
    while True:
        new, change = copy.deepcopy(state), dice.choice(CHANGES)
        try:
            change(dice, new)
        except LookupError:
            continue
        return new, change.__name__


def byte_changed(dice, data):
    at = dice.randrange(len(data))
    return data[:at] + bytes([dice.choice([data[at] ^ 1 << dice.randrange(8), dice.randrange(256)])]) + data[at + 1 :]


def bytes_cut(dice, data):
    at = dice.randrange(len(data))
    return data[:at] + data[at + dice.choice([1, 1, 4, 8, dice.randrange(1, 40)]) :]


def end_cut(dice, data):
    return data[: max(1, len(data) - dice.choice([1, 1, 8, dice.randrange(1, len(data))]))]


def bytes_put_in(dice, data):
    at = dice.randrange(len(data) + 1)
    return data[:at] + dice.choice([dice.randbytes(dice.randrange(1, 9)), b"\x00" * dice.choice([1, 4, 8])]) + data[at:]


def end_added(dice, data):
    return data + dice.choice([b"\x00", b"\x01", b"\x00" * 8, dice.randbytes(dice.randrange(1, 20))])


def piece_moved(dice, data):
    at, end = sorted(dice.randrange(len(data) + 1) for _ in range(2))
    rest = data[:at] + data[end:]
    goal = dice.randrange(len(rest) + 1)
    return rest[:goal] + data[at:end] + rest[goal:]


BYTE_CHANGES = (byte_changed, byte_changed, bytes_cut, end_cut, bytes_put_in, end_added, piece_moved)


def explicit(dice, state, form):
    """The text of one format with what stands only in the other: a list of suspensions, empty or not, or the other format itself."""
    suspensions = suspensions_of(state)
    if dice.randrange(2):
        return spelled(state, 3 - form)
    if dice.randrange(2):
        suspensions.parts = []
    return (spelled(state, form) if form == 2 or not suspensions.parts else spelled(state, 2)) + suspensions.bytes()


def damaged(dice, state, form):
    """The bytes of a state that was damaged, or wasn't, in a format, and what was done."""
    kind = dice.randrange(20)
    if kind == 0:
        return spelled(state, form), "nothing"
    if kind == 1:
        return explicit(dice, state, form), "other format"
    if kind < 7:
        change = dice.choice(BYTE_CHANGES)
        return change(dice, spelled(state, form)), change.__name__
    state, name = changed(dice, state)
    if kind > 16:
        state, other = changed(dice, state)
        name = "two"
    return spelled(state, form), name
