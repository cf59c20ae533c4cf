"""Lines of scripts at random: mostly those that are due by what the plain world says, and at times
any others."""
import collections
import random

from plain_core import ABORTED, ACTIVE, COMMITTED
from plain_store import BODY, CLOSE, OPEN

# Again and again transactions gather that are Preparing, and then are settled: so many lines in
# all, and so many of them gather.
PATTERN, GATHERING = 64, 40
JOB_STEPS = (
    "rotate-write", "checkpoint-read", "checkpoint-data", "checkpoint-delta", "merge-read 0",
    "merge-read 1", "merge-data", "merge-delta", CLOSE, BODY, OPEN, "reclaim",
)  # fmt: skip
WHOLE_JOBS = ("rotate", "checkpoint", "merge 0", "merge 1")

# Of 64 lines so many are of groups, of jobs, and of trims and collections; of 8 begins so many are
# of read-only ones; how many transactions there are at once, tables, keys of each, and sorts; and
# of 64 lines how many are anything, with a name that may be nobody's.
Profile = collections.namedtuple(
    "Profile",
    "groups jobs memory readers names tables keys sorts any",
    defaults=(8, (0, 63), 6, 10, 5),
)
PROFILES = {
    # The core alone, whose groups are soon too many.
    "core": Profile(3, 0, 0, 0),
    "trims": Profile(6, 0, 22, 0),
    "readers": Profile(6, 0, 6, 3),
    "jobs": Profile(8, 10, 2, 0, 6, (0, 1), 8, 100),
    "all": Profile(8, 8, 6, 2, 6, (0, 1), 8, 100),
}
# Transactions alone, of which others do what is due.
KEPT = Profile(0, 0, 0, 2)


class Drawing:
    """Draws lines by a seed and a profile, over a plain world."""

    def __init__(self, world, profile, seed):
        self.world, self.profile, self.drawn = world, profile, 0
        self.random = random.Random(seed)
        self.names = [f"a{number}" for number in range(profile.names)]

    def below(self, count):
        return self.random.randrange(count)

    def line(self):
        """The next line."""
        self.drawn += 1
        its, at = self.profile, self.below(64)
        settles = self.drawn % PATTERN >= GATHERING
        for count, draw in (
            (its.groups * (1 + settles), self.line_of_groups),
            (its.jobs, self.line_of_jobs),
            (its.memory, self.line_of_memory),
            (its.any, self.any_line),
        ):
            if at < count:
                return draw()
            at -= count
        return self.due_line(settles)

    # ---- groups, jobs and memory

    def line_of_groups(self):
        store, core = self.world.store, self.world.core
        word = self.random.choice(("group", "group", "take", "body", "open", *("due",) * 11))
        if not self.profile.jobs and word == "due":
            # Where no job needs them they pile up in the ring.
            return "group" if self.below(self.profile.memory * 2 or 500) else "flush"
        if word != "due":
            return word
        if store.is_written:
            return "open"
        if store.pending:
            return "body"
        return "take" if core.ring else self.random.choice(("group", "group", "flush"))

    def line_of_jobs(self):
        store = self.world.store
        at = self.below(32)
        if at < 9:
            return self.random.choice(JOB_STEPS)
        if at < 10:
            return self.random.choice(WHOLE_JOBS)
        if at < 16 and store.filled - store.used():
            return "reclaim"
        if at < 20 and not store.job and len(store.segments) > 1:
            return "checkpoint-read"
        if at < 26 and not store.merge and len(store.pairs) > 1:
            return f"merge-read {self.below(len(store.pairs) - 1)}"
        due = [it.due for it in (store.job, store.merge) if it]
        return self.random.choice(due) if due else "rotate-write"

    def line_of_memory(self):
        core = self.world.core
        if self.below(4):
            return "collect"
        if self.below(3):
            return f"trim {max(0, core.oldest_begin() + 2 - self.below(5))}"
        return f"trim {max(0, core.clock + 1 - self.below(48))}"

    # ---- transactions

    def state_of(self, name):
        """The transaction of a name, if it is unfinished."""
        return self.world.core.unfinished.get(self.world.names.get(name))

    def chosen(self, settles):
        """A name: often one that is Preparing while they settle, and one that isn't while they
        gather."""
        if self.below(8) < 5:
            found = [it for it in self.names if self.is_preparing(it) == settles]
            if found:
                return self.random.choice(found)
        return self.random.choice(self.names)

    def is_preparing(self, name):
        tx = self.state_of(name)
        return tx is not None and tx.state not in (ACTIVE, COMMITTED, ABORTED)

    def due_line(self, settles):
        name = self.chosen(settles)
        tx = self.state_of(name)
        if tx is None:
            return self.begin(name)
        if tx.state == ACTIVE:
            return self.line_of_active(name, tx, settles)
        if tx.state in (COMMITTED, ABORTED):
            return f"finish {name}"
        words = ("rollback", "settle", *("validate",) * 14)
        if tx.is_valid:
            words = ("rollback", "validate", *("settle",) * 14)
        return f"{self.random.choice(words)} {name}"

    def begin(self, name):
        is_reader = self.below(8) < self.profile.readers
        return f"{'begin-read' if is_reader else 'begin'} {name}"

    def line_of_active(self, name, tx, settles):
        if tx.reads_only and self.below(8) < 5:
            # It stays open over many lines of the others.
            return self.line_beside(name)
        at = self.below(64)
        if at < 2:
            return f"rollback {name}"
        if at < 5:
            return f"commit {name}"
        if at < 18 and not settles:
            return f"precommit {name}"
        return self.operation(name)

    def line_beside(self, name):
        if not self.profile.groups:
            return self.operation(name)
        return self.line_of_groups() if self.below(2) else self.line_of_memory()

    def any_line(self):
        """A line of a transaction that may be out of turn, or that may not be there."""
        name = "nobody" if self.below(24) == 0 else self.random.choice(self.names)
        if self.below(3) == 0:
            return self.operation(name)
        polls = ("poll",) * 3 if self.profile.groups else ()
        words = ("precommit", "validate", "settle", "rollback", "finish", "commit", *polls)
        return f"{self.random.choice(words)} {name}"

    def operation(self, name):
        word = self.random.choice(
            ("read",) * 4 + ("scan",) * 3 + ("insert",) * 3 + ("update",) * 4 + ("delete",) * 2
        )
        table = 64 if self.below(128) == 0 else self.random.choice(self.profile.tables)
        key = self.below(self.profile.keys)
        if word == "scan":
            low, high = self.below(self.profile.sorts), self.below(self.profile.sorts)
            return f"scan {name} {table} {low} {high}"
        if word in ("read", "delete"):
            return f"{word} {name} {table} {key}"
        return f"{word} {name} {table} {key} {self.below(self.profile.sorts)} {self.data()}"

    def data(self):
        if self.below(128) == 0:
            return "61" * 4097
        return self.random.randbytes(self.below(9)).hex() or "-"
