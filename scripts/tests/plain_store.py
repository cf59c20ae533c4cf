"""What a store of files answers, and the lines of a script over a core and a store, worked out by
the words of docs/SCRIPT.md, docs/REFUSALS.md and docs/FORMATS.md alone, and by formats.py where a
folder is opened."""
import formats
from plain_core import COMMITTED, Core, Operation, Refused

MAX_SEGMENTS = MAX_PAIRS = 64
OPERATIONS = ("read", "scan", "insert", "update", "delete")
# The lines of a transaction that are a call of the core each.
CALLS = ("precommit", "validate", "settle", "rollback", "finish")
CLOSE, BODY, OPEN = "install-close", "install-body", "install-open"
BEHIND = {CLOSE: BODY, BODY: OPEN}


class Pair:
    """A pair of files, and the keys of its live records."""

    def __init__(self, data, delta, live):
        self.files, self.live = (data, delta), live


class Segment:
    """A segment of the log: its file, and whether each key that its groups wrote is there."""

    def __init__(self, file):
        self.file, self.groups, self.keys = file, 0, {}

    def take(self, writes):
        self.groups += 1
        self.keys.update(writes)


class Job:
    """A rotation, a checkpoint or a merge: the step that is due, and the files that it takes."""

    def __init__(self, kind, due, files):
        self.kind, self.due, self.files = kind, due, files


class Store:
    """A store: a fresh one, or the one of these files, whose numbers are by formats.py."""

    def __init__(self, files=None):
        # The files that hold bytes.
        self.filled = {2}
        self.generation, self.mark = 0, 0
        self.pairs, self.segments = [], [Segment(2)]
        self.pending, self.is_written, self.is_down = None, False, False
        # The job whose manifest is next, and a merge whose files aren't all written.
        self.job = self.merge = None
        if files is not None:
            self.open(files)

    def open(self, files):
        self.generation, mark, pairs, segments, upto = formats.installed_of(files)
        self.filled = {it for it, data in files.items() if it >= 2 and data}
        self.pairs = []
        for pair in pairs:
            rows = {}
            formats.pair_of(pair, files, rows, upto)
            self.pairs.append(Pair(*pair[:2], set(rows)))
        self.segments = [Segment(it) for it in segments]
        for segment in self.segments:
            for _, end, records in formats.groups_of(segment.file, files[segment.file]):
                mark = end
                for _, writes in records:
                    segment.keys.update({key: row is not None for key, row in writes})
                segment.groups += 1
        self.mark = mark

    # ---- files

    def used(self):
        """The files that the manifest names, or that a job takes."""
        named = [file for pair in self.pairs for file in pair.files]
        named += [it.file for it in self.segments]
        for job in (self.job, self.merge):
            named += job.files if job else ()
        return set(named)

    def free(self, count):
        """The least files that aren't used."""
        used, found = self.used(), []
        for file in range(2, 1024):
            if file not in used and len(found) < count:
                found.append(file)
        return found

    # ---- groups

    def need_up(self):
        if self.is_down:
            raise Refused("51")

    def take(self, ring):
        self.need_up()
        if self.pending:
            raise Refused("52")
        if not ring:
            raise Refused("56")
        self.pending = ring.pop(0)
        return "taken"

    def body(self):
        self.need_up()
        if not self.pending:
            raise Refused("56")
        if self.is_written:
            raise Refused("52")
        self.is_written = True
        return "written"

    def open_gate(self):
        self.need_up()
        if not self.is_written:
            raise Refused("56")
        writes = {}
        for record in self.pending.records:
            writes.update({key: row is not None for key, row in record.net.items()})
        self.segments[-1].take(writes)
        self.mark = self.pending.mark
        self.pending, self.is_written = None, False
        return f"durable {self.mark}"

    # ---- jobs

    def rotate_write(self):
        self.need_up()
        if self.job or self.merge:
            raise Refused("52")
        if not self.segments[-1].groups:
            raise Refused("56")
        if len(self.segments) >= MAX_SEGMENTS:
            raise Refused("39")
        self.job = Job("rotation", CLOSE, self.free(1))
        self.filled.update(self.job.files)
        return "ready"

    def checkpoint_read(self):
        self.need_up()
        if self.job:
            raise Refused("52")
        if len(self.segments) < 2:
            raise Refused("56")
        if len(self.pairs) >= MAX_PAIRS:
            raise Refused("38")
        self.job = Job("checkpoint", "checkpoint-data", self.free(2))
        keys = self.segments[0].keys
        self.job.deltas = sum(not pair.live.isdisjoint(keys) for pair in self.pairs)
        return "more"

    def merge_read(self, place):
        self.need_up()
        if self.merge or (self.job and self.job.kind != "checkpoint"):
            raise Refused("52")
        if place + 1 >= len(self.pairs):
            raise Refused("56")
        self.merge = Job("merge", "merge-data", self.free(2))
        self.merge.pairs = self.pairs[place : place + 2]
        return "more"

    def due(self, step):
        """The job whose next step it is."""
        self.need_up()
        for job in (self.job, self.merge):
            if job and job.due == step:
                return job
        raise Refused("56")

    def data(self, step, then):
        job = self.due(step)
        job.due = then
        self.filled.add(job.files[0])
        return "more"

    def checkpoint_delta(self):
        job = self.due("checkpoint-delta")
        self.filled.add(job.files[1])
        if job.deltas:
            job.deltas -= 1
            return "more"
        job.due = CLOSE
        return "ready"

    def merge_delta(self):
        job = self.due("merge-delta")
        if self.job:
            raise Refused("52")
        self.filled.add(job.files[1])
        job.due = CLOSE
        self.job, self.merge = job, None
        return "ready"

    def install(self, step, reply):
        job = self.due(step)
        job.due = BEHIND[step]
        return reply

    def install_open(self):
        job = self.due(OPEN)
        if self.is_written and job.kind == "rotation":
            raise Refused("52")
        if job.kind == "rotation":
            self.segments.append(Segment(*job.files))
        elif job.kind == "checkpoint":
            keys = self.segments.pop(0).keys
            for pair in self.pairs:
                pair.live -= set(keys)
            self.pairs.append(Pair(*job.files, {key for key, stands in keys.items() if stands}))
        else:
            at = self.pairs.index(job.pairs[0])
            live = job.pairs[0].live | job.pairs[1].live
            self.pairs[at : at + 2] = [Pair(*job.files, live)]
        self.generation += 1
        self.job = None
        return f"installed {self.generation}"

    def reclaim(self):
        self.need_up()
        dead = self.filled - self.used()
        if not dead:
            return "done"
        self.filled.remove(min(dead))
        return "more"


class World:
    """What a script is answered, line by line, over a fresh store or over that of these files."""

    def __init__(self, files=None, core=Core, store=Store):
        self.store = store(files)
        rows = {}
        if files is not None:
            _, found, *_ = formats.opened(files)
            rows = {key: (sort, data.hex() or "-") for key, (sort, data) in found.items()}
        self.core = core(rows, self.store.mark)
        # What each name is bound to, and the end of what was committed under it.
        self.names, self.ends = {}, {}
        # All commits that wrote, and all groups that were closed.
        self.commits, self.groups = [], []
        self.steps = self.steps_of(self.store)

    def steps_of(self, store):
        """The lines of one word."""
        return {
            "take": lambda: store.take(self.core.ring),
            "body": store.body,
            "open": store.open_gate,
            "rotate-write": store.rotate_write,
            "checkpoint-read": store.checkpoint_read,
            "checkpoint-data": lambda: store.data("checkpoint-data", "checkpoint-delta"),
            "checkpoint-delta": store.checkpoint_delta,
            "merge-data": lambda: store.data("merge-data", "merge-delta"),
            "merge-delta": store.merge_delta,
            CLOSE: lambda: store.install(CLOSE, "closed"),
            BODY: lambda: store.install(BODY, "written"),
            OPEN: store.install_open,
            "reclaim": store.reclaim,
            "group": self.close_group,
            "collect": self.core.collect,
            "flush": self.flush,
            "rotate": lambda: self.all_of("rotate-write"),
            "checkpoint": self.checkpoint,
        }

    def answer(self, line):
        """The reply to a line."""
        word, *given = line.split(" ")
        try:
            return self.reply(word, given)
        except Refused as refused:
            return f"refused {refused}"

    def reply(self, word, given):
        if word in self.steps:
            return self.steps[word]()
        if word == "trim":
            return self.core.trim(int(given[0]))
        if word == "merge-read":
            return self.store.merge_read(int(given[0]))
        if word == "merge":
            return self.merge(int(given[0]))
        if word in ("begin", "begin-read"):
            return self.begin(given[0], word == "begin-read")
        return self.reply_of(word, *given)

    def reply_of(self, word, name, *given):
        """A line of a transaction that was begun."""
        if name not in self.names:
            return "bad line"
        begin = self.names[name]
        if word == "poll":
            return "yes" if self.ends.get(name, self.store.mark + 1) <= self.store.mark else "no"
        if word == "commit":
            return self.commit(name, begin)
        if word == "settle":
            return self.settle(name, begin)
        if word in CALLS:
            return getattr(self.core, word)(begin)
        return self.core.operate(begin, operation(word, given))

    def begin(self, name, reads_only):
        reply = self.core.begin(reads_only)
        self.names[name] = int(reply.split(" ")[1])
        self.ends.pop(name, None)
        return reply

    def settle(self, name, begin):
        reply = self.core.settle(begin)
        tx = self.core.unfinished[begin]
        if tx.state == COMMITTED:
            self.ends[name] = tx.end
            if tx.net:
                self.commits.append(tx)
        return reply

    def commit(self, name, begin):
        self.core.precommit(begin)
        while self.core.validate(begin) == "more":
            pass
        reply = self.settle(name, begin)
        while reply.startswith("committed") and self.core.finish(begin) == "more":
            pass
        return reply

    def close_group(self):
        reply = self.core.group()
        self.groups.append(self.core.ring[-1])
        return reply

    def flush(self):
        try:
            self.close_group()
        except Refused as refused:
            if str(refused) not in ("56", "36"):
                raise
        while True:
            if not self.store.pending:
                self.store.need_up()
                if not self.core.ring:
                    return f"durable {self.store.mark}"
                self.store.take(self.core.ring)
            if not self.store.is_written:
                self.store.body()
            self.store.open_gate()

    def all_of(self, *steps):
        for step in (*steps, CLOSE, BODY):
            self.steps[step]()
        return self.store.install_open()

    def checkpoint(self):
        self.store.checkpoint_read()
        self.steps["checkpoint-data"]()
        while self.store.checkpoint_delta() == "more":
            pass
        return self.all_of()

    def merge(self, place):
        self.store.merge_read(place)
        return self.all_of("merge-data", "merge-delta")

    def rows_up_to(self, mark, rows):
        """These rows, of the opening, after the commits up to a mark."""
        rows = dict(rows)
        for tx in sorted(self.commits, key=lambda it: it.end):
            for key, row in tx.net.items() if tx.end <= mark else ():
                rows.pop(key, None)
                if row:
                    rows[key] = row.sort, b"" if row.data == "-" else bytes.fromhex(row.data)
        return rows


def operation(word, given):
    if word in ("insert", "update"):
        *numbers, data = given
        return Operation(word, *map(int, numbers), data=data)
    return Operation(word, *map(int, given))
