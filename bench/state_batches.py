"""What `bench_state` is given to count each change and each question of the state among so many rows: for stores.py.

A row is an activity with an attribute, a name, a timer, and an event that waits on it and was selected for; a root that is attached to
it, with a field, a mask and a convergence name; and a row of a profile table. All rows are made once. Then come batches, each of so many
calls of one kind, one at each of the rows in the middle, in no order. So each leaf there comes to be split, as one is by at least 32 rows
that come, and what that costs is told in its share. The calls of a batch SPREAD are far apart instead: many are the second in a leaf
that was all but full, and split it. A batch that isn't measured brings back what the ones before it took away, but behind the last.
"""
import os
import re
import subprocess
import sys
import tempfile

PARTS = "event ping\nevent pong\nprofile account pin:int!\ntable accounts account\nblock b ping! pong\nservice s b 0 active\nservice t b 0 active"
# neighbours in a batch are far apart in rows
STRIDE = 7919
MOST_CALLS = 2_000
LEAST_CALLS = 200
ROWS_AT_ONCE = 10_000
CLAIMS = 64
# no timer of the rows is due before this moment
FIRST_MOMENT = 1_000_000
LATE = 10**15
# numbers in words have as many digits in each row
WIDE = 1_000_000_000


class Row:
    """The words for the row at a place: its entity, its activity, its timer, and the word by which it is named."""

    def __init__(self, place):
        self.place = place
        self.entity = place + 1
        # the first activity is the table's
        self.activity = place + 2
        self.timer = place + 1
        self.word = f"n{WIDE + place}"

    def activity_lines(self):
        yield f"start external {self.word}"
        yield f"set-attr {self.activity} b.n int:1"
        yield f"bind {self.word} {self.activity}"
        yield self.timer_line(FIRST_MOMENT + self.place)
        yield f"push {self.activity} {self.place} ping -"
        yield f"mark-service {self.activity} 0"

    def entity_lines(self):
        yield "create-root 0 0 0"
        yield f"root {self.entity} {self.activity}"
        yield f"set-field {self.entity} n int:1"
        yield f"attach {self.entity} {self.activity}"
        yield f"mask {self.entity} {self.activity} pong"

    def row_line(self, verb, pin):
        return f"{verb} 0 {self.word} pin=int:{WIDE + pin}"

    def timer_line(self, start):
        return f"set-timer {self.activity} {start} 0 1 all"

    def lines(self):
        return [*self.activity_lines(), *self.entity_lines(), self.row_line("add-row", self.place)]


def at(form):
    """A batch's line at each row, by a form with the row's words."""
    return lambda state, row, nth: form.format(e=row.entity, a=row.activity, t=row.timer, w=row.word)


# Groups of batches, each batch with the name under which it is counted, or none, and its line at a row. `new` is the number of what the
# batches of the group made.
CHANGES = (
    (("set_field", at("set-field {e} n int:2")), ("forget_fields", at("forget-fields {e}")), (None, at("set-field {e} n int:1"))),
    (("create_root", at("create-root 0 0 1")), ("remove", lambda s, row, nth: f"remove {s.entities + nth}")),
    (("create_child", at("create-child {e} leg 0 1")), ("remove_child", lambda s, row, nth: f"remove {s.entities + nth}")),
    (("set_priority", at("set-priority {e} 1")), (None, at("set-priority {e} 0"))),
    (("root", at("root {e} {a}")),),
    (
        ("start", at("start null")),
        ("end", lambda s, row, nth: f"end {s.activities + nth}"),
        ("drop_context", lambda s, row, nth: f"drop {s.activities + nth}"),
    ),
    (
        ("start_external", lambda s, row, nth: f"start external m{WIDE + row.place}"),
        ("drop_external", lambda s, row, nth: f"drop {s.activities + nth}"),
    ),
    (("detach", at("detach {e} {a}")), ("attach", at("attach {e} {a}"))),
    (("set_attr", at("set-attr {a} b.n int:2")),),
    (("unbind", at("unbind {w}")), ("bind", at("bind {w} {a}"))),
    (
        ("set_mask", at("mask {e} {a} zap")),
        ("unset_mask", at("unmask {e} {a} zap")),
        ("forget_masks", at("forget-masks {e} {a}")),
        ("mask_on_attach", at("mask-on-attach {e} {a} pong")),
    ),
    (
        ("mark_service", at("mark-service {a} 1")),
        ("mark_entity", at("mark-entity {a} {e}")),
        ("hold", at("hold {a} 5")),
        ("release", at("release {a}")),
        ("pop", at("pop {a}")),
        ("push", at("push {a} {t} ping -")),
        (None, at("mark-service {a} 0")),
    ),
    (
        ("set_timer", lambda s, row, nth: row.timer_line(LATE)),
        ("cancel", lambda s, row, nth: f"cancel {s.timers + nth}"),
        ("cancel_all", at("cancel-all {a}")),
        (None, lambda s, row, nth: row.timer_line(FIRST_MOMENT + row.place)),
    ),
    (("advance", at("advance 5")), (None, lambda s, row, nth: row.timer_line(10 + nth)), ("advance_due", lambda s, row, nth: f"advance {10 + nth}")),
    (
        ("update_row", lambda s, row, nth: row.row_line("update-row", s.rows + row.place)),
        (None, lambda s, row, nth: row.row_line("update-row", row.place)),
        ("remove_row", at("remove-row 0 {w}")),
        ("add_row", lambda s, row, nth: row.row_line("add-row", row.place)),
    ),
    (("clock", lambda s, row, nth: f"clock {nth}"),),
    (("taken", at("taken")),),
    (("next_event", at("next-event")),),
    (("service", at("service 1 active 0")),),
)
QUESTIONS = (
    (("root_name", at("root-name {e}")),),
    (("has_attachment", at("has-attachment {e}")),),
    (("next", at("next {a}")),),
    (("least", at("least")),),
    (("least_claimed", lambda s, row, nth: "least " + " ".join(str(Row(it).activity) for it in range(min(CLAIMS, s.rows - 1)))),),
    (("look_next", at("look next {a}")),),
    (("look_field", at("look field {e} n")),),
    (("look_children", at("look children {e} leg")),),
    (("look_priority", at("look priority {e}")),),
    (("look_activity", at("look activity {a}")),),
    (("look_attr", at("look attr {a} b.n")),),
    (("look_attached", at("look attached {e} {a}")),),
    (("look_masks", at("look masks {e} {a}")),),
    (("look_name", at("look name {w}")),),
    (("look_timer", at("look timer {t}")),),
    (("look_row", at("look row accounts {w}")),),
    (("look_clock", at("look clock")),),
    (("look_activities", at("look activities {e}")),),
)
SPREAD = "set_mask_spread"
SUSPENDED = "least_of_suspended"
DROP = "drop_row"
CALLS = [name for group in CHANGES + QUESTIONS for name, _ in group if name] + [SPREAD, SUSPENDED, DROP]


class Batches:
    """The program's input for so many rows, and which of its batches count for which call."""

    def __init__(self, rows):
        self.rows = rows
        self.texts, self.names, self.sizes = [], [], []
        # the next numbers
        self.entities, self.activities, self.timers = rows + 1, rows + 2, rows + 1
        self.fill()
        for group in QUESTIONS + CHANGES:
            self.put_group(group)
        self.put_spread()
        self.put_suspended()
        self.put_drops()

    def put(self, name, lines):
        self.texts.append("\n".join(lines))
        self.names.append(name)
        self.sizes.append(len(lines))

    def fill(self):
        for first in range(0, self.rows, ROWS_AT_ONCE):
            places = range(first, min(first + ROWS_AT_ONCE, self.rows))
            self.put(None, [line for place in places for line in Row(place).lines()])

    def places(self):
        count = min(self.rows, MOST_CALLS)
        first = (self.rows - count) // 2
        return [first + nth * STRIDE % count for nth in range(count)]

    def spread_places(self):
        return [nth * STRIDE % self.rows for nth in range(min(self.rows, MOST_CALLS))]

    def put_group(self, group):
        for _ in range(-(-LEAST_CALLS // len(self.places()))):
            made = []
            for name, line in group:
                made += [line(self, Row(place), nth) for nth, place in enumerate(self.places())]
                self.put(name, made[-len(self.places()) :])
            self.entities += sum(it.startswith("create-") for it in made)
            self.activities += sum(it.startswith("start ") for it in made)
            self.timers += sum(it.startswith("set-timer ") for it in made)

    def put_spread(self):
        for name, word in ((SPREAD, "mask"), (None, "unmask")):
            self.put(name, [f"{word} {Row(place).entity} {Row(place).activity} zap" for place in self.spread_places()])

    def put_suspended(self):
        """All events but the last row's are suspended."""
        self.put(None, [f"hold {Row(place).activity} 5" for place in range(self.rows - 1)])
        self.put(SUSPENDED, ["least"] * LEAST_CALLS)
        self.put(None, [f"release {Row(place).activity}" for place in range(self.rows - 1)])

    def put_drops(self):
        """Activities go with all that rows have of them."""
        self.put(None, [f"pop {Row(place).activity}" for place in self.places()])
        self.put(DROP, [f"drop {Row(place).activity}" for place in self.places()])


def totals_of(folder):
    """The instructions of each part of a run, in its order."""
    found = {}
    for name in os.listdir(folder):
        with open(os.path.join(folder, name), encoding="utf-8", errors="replace") as f:
            text = f.read()
        part, total = re.search(r"^part: (\d+)", text, re.M), re.search(r"^(?:totals|summary): (\d+)", text, re.M)
        if part and total:
            found[int(part[1])] = int(total[1])
    return [found[part] for part in sorted(found)]


def counted(program, batches):
    """The instructions of each batch. A part of the run ends where a line is printed: each batch has one for reading it, one for playing it."""
    with tempfile.TemporaryDirectory() as folder:
        words = ["valgrind", "--tool=callgrind", "--dump-before=write", "--dump-before=__write", f"--callgrind-out-file={folder}/out"]
        given = (PARTS + "\nbegin\n" + "\n\n".join(batches.texts)).encode()
        ran = subprocess.run([*words, program], input=given, capture_output=True, check=False)
        said = ran.stdout.decode().split("\n")
        wanted = [line for size in batches.sizes for line in ("read", f"sum {size}")]
        if ran.returncode or said != [*wanted, ""]:
            first = next((at for at, line in enumerate(wanted) if said[at : at + 1] != [line]), 0)
            wrong = batches.texts[first // 2].split("\n")[0]
            sys.exit(f"{program}: status {ran.returncode}, batch {first // 2} ({wrong} ..): {said[first : first + 1]}, not {wanted[first]}\n{ran.stderr.decode()[-500:]}")
        totals = totals_of(folder)
        if len(totals) < len(wanted):
            sys.exit(f"{program}: {len(totals)} parts of the run, not {len(wanted)}")
        return totals[1 : len(wanted) : 2]


def costs(program, rows):
    """The instructions of each call among so many rows."""
    batches = Batches(rows)
    sums, sizes = {}, {}
    for name, size, count in zip(batches.names, batches.sizes, counted(program, batches)):
        sums[name] = sums.get(name, 0) + count
        sizes[name] = sizes.get(name, 0) + size
    return {name: sums[name] / sizes[name] for name in CALLS}
