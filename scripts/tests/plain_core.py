"""What a core answers, worked out by the words of docs/MODEL.md, docs/SCRIPT.md and
docs/REFUSALS.md alone: histories by their ends, and no index, counter or order among versions.
scripts/tests/random-run-test and scripts/tests/random-stop-test compare the program with it."""
import bisect
import heapq

MAX_STAMP, MAX_TABLE, MAX_DATA = 2**62, 63, 4096
MAX_UNFINISHED, MAX_WRITES, MAX_ENTRIES = 1024, 256, 4096
# Of a group its commits and the bytes of its body; and how many groups wait for the store.
MAX_RECORDS, MAX_BODY, RING = 1024, 4_194_304, 64
ACTIVE, PREPARING, COMMITTED, ABORTED = "Active", "Preparing", "Committed", "Aborted"
READS = ("read", "scan")


class Refused(Exception):
    """What stands behind `refused`."""


class Version:
    """A row that was put. In its words stand a transaction, a timestamp, or neither."""

    def __init__(self, begin):
        self.begin, self.end = begin, None


class Row:
    """What stands at a key."""

    def __init__(self, sort, data, version):
        self.sort, self.data, self.version = sort, data, version


class Operation:
    """What is asked for. An entry is a key, or a table from one sort to another."""

    def __init__(self, word, table, *numbers, data="-"):
        self.word, self.table, self.data = word, table, data
        self.key = None if word == "scan" else (table, numbers[0])
        self.entry = (table, *numbers) if word == "scan" else self.key
        self.sort = numbers[1] if word in ("insert", "update") else None

    def size(self):
        return 0 if self.data == "-" else len(self.data) // 2


def covers(entry, key, sort):
    """Whether a row of this key and sort is in what an operation looks at."""
    if len(entry) == 2:
        return entry == key
    return entry[0] == key[0] and entry[1] <= sort <= entry[2]


class Transaction:
    """An unfinished transaction."""

    def __init__(self, begin, reads_only):
        self.begin, self.reads_only = begin, reads_only
        self.state, self.end = ACTIVE, None
        # In the order of their first use, and how many were checked.
        self.entries, self.checked, self.is_valid = {}, 0, False
        # What stands at the keys that it wrote, and None where it deleted them.
        self.net = {}
        # The rows that it put or ended, those that it put, and the words that it wrote.
        self.footprint, self.puts, self.words = [], [], []
        # The origins of the keys of which it was the first to end the row.
        self.claims = {}
        # Whom it depends on, and the first of them that was aborted.
        self.depends, self.flag = {}, None

    def is_open(self):
        return self.state in (ACTIVE, PREPARING)

    def held(self):
        """The words that still name it."""
        return [(it, word) for it, word in self.words if getattr(it, word) is self]


class Group:
    """A closed group: its commits, each an end with what it left at its keys."""

    def __init__(self, prev, mark, records):
        self.prev, self.mark, self.records = prev, mark, records


def size_of(record):
    """How many bytes of a group's body a commit takes."""
    sizes = (10 if row is None else 20 + len(row.data.replace("-", "")) // 2
             for row in record.net.values())  # fmt: skip
    return 10 + sum(sizes)


class Core:
    """A core over rows, by table and key, with the clock at their mark."""

    def __init__(self, rows, mark):
        self.clock = self.opening = self.start = self.closed = mark
        self.rows = {key: Row(sort, data, Version(mark)) for key, (sort, data) in rows.items()}
        # The sorts of the rows at the start of the tale.
        self.base = {key: row.sort for key, row in self.rows.items()}
        self.keys = {}
        for key in self.rows:
            self.keys.setdefault(key[0], set()).add(key)
        self.unfinished = {}
        # By end: those that are Preparing or Committed; who of them wrote a key; what they put.
        self.stamped, self.writers, self.put = [], {}, []
        self.claims = {}
        # Commits that wrote and are in no group yet, and the groups that wait for the store.
        self.unclosed, self.ring = [], []
        # The ends of versions above the start, and how many versions are garbage.
        self.ends, self.garbage = [], 0

    # ---- who is asked

    def draw(self):
        if self.clock >= MAX_STAMP:
            raise Refused("35")
        self.clock += 1
        return self.clock

    def begin(self, reads_only=False):
        if len(self.unfinished) >= MAX_UNFINISHED:
            raise Refused("30")
        begin = self.draw()
        self.unfinished[begin] = Transaction(begin, reads_only)
        return f"began {begin}"

    def asked(self, begin, state, other):
        """The transaction that is in this state, and isn't flagged."""
        tx = self.unfinished.get(begin)
        if tx is None:
            raise Refused("10")
        if not tx.is_open():
            raise Refused("11")
        if tx.state != state:
            raise Refused(other)
        if tx.flag:
            self.abort(tx)
            raise Refused(f"22 {tx.flag}")
        return tx

    # ---- what is shown

    def last_writer(self, key, begin):
        """Who wrote the key, of those that end below the begin, the last by end."""
        for tx in reversed(self.writers.get(key, ())):
            if tx.end < begin:
                return tx
        return None

    def origin(self, tx, key):
        last = self.last_writer(key, tx.begin)
        return last.end if last else self.opening

    def row(self, tx, key):
        if key in tx.net:
            return tx.net[key]
        last = self.last_writer(key, tx.begin)
        return last.net[key] if last else self.rows.get(key)

    def counting(self, tx, entry):
        """The keys that count for an entry."""
        if len(entry) == 2:
            return {entry}
        found = {key for key, sort in self.base.items() if covers(entry, key, sort)}
        put = (it for it in self.put if it[0].end < tx.begin)
        return found | {key for _, key, sort in put if covers(entry, key, sort)}

    def depend(self, tx, entry):
        if not any(it.state == PREPARING and it.end < tx.begin for it in self.stamped):
            return
        for key in self.counting(tx, entry):
            last = self.last_writer(key, tx.begin)
            if key not in tx.net and last and last.state == PREPARING:
                tx.depends[last.begin] = last

    # ---- operations

    def operate(self, begin, op):
        tx = self.asked(begin, ACTIVE, "12")
        writes = op.word not in READS
        if writes and tx.reads_only:
            raise Refused("60")
        if op.table > MAX_TABLE:
            raise Refused("34")
        if op.size() > MAX_DATA:
            raise Refused("33")
        if len(tx.entries) >= MAX_ENTRIES and op.entry not in tx.entries:
            raise Refused("32")
        if writes and len(tx.net) >= MAX_WRITES and op.key not in tx.net:
            raise Refused("31")
        if op.word in ("update", "delete"):
            self.unless_claimed(tx, op.key)
        tx.entries[op.entry] = True
        self.depend(tx, op.entry)
        return getattr(self, op.word)(tx, op)

    def unless_claimed(self, tx, key):
        """Refuses where another was the first to end the row, which it didn't write."""
        if key in tx.net or self.row(tx, key) is None:
            return
        other = self.claims.get((key, self.origin(tx, key)))
        if other:
            self.abort(tx)
            who = f"active {other.begin}" if other.state == ACTIVE else f"stamped {other.end}"
            raise Refused(f"20 {who}")

    def read(self, tx, op):
        row = self.row(tx, op.key)
        return f"row {row.sort} {row.data}" if row else "none"

    def scan(self, tx, op):
        rows = ((key, self.row(tx, key)) for key in self.keys.get(op.table, ()))
        found = [(it.sort, key[1], it.data) for key, it in rows
                 if it and covers(op.entry, key, it.sort)]  # fmt: skip
        shown = (f" {key}:{sort}:{data}" for sort, key, data in sorted(found))
        return f"rows {len(found)}" + "".join(shown)

    def insert(self, tx, op):
        if self.row(tx, op.key):
            return "exists"
        self.put_row(tx, op)
        return "inserted"

    def update(self, tx, op):
        row = self.row(tx, op.key)
        if not row:
            return "absent"
        self.end_row(tx, op.key, row)
        self.put_row(tx, op)
        return "updated"

    def delete(self, tx, op):
        row = self.row(tx, op.key)
        if not row:
            return "absent"
        self.end_row(tx, op.key, row)
        tx.net[op.key] = None
        return "deleted"

    def put_row(self, tx, op):
        version = Version(tx)
        tx.words.append((version, "begin"))
        tx.net[op.key] = Row(op.sort, op.data, version)
        tx.footprint.append((op.key, op.sort))
        tx.puts.append((op.key, op.sort))
        self.keys.setdefault(op.table, set()).add(op.key)

    def end_row(self, tx, key, row):
        if key not in tx.net:
            claim = key, self.origin(tx, key)
            tx.claims[claim] = self.claims[claim] = tx
        row.version.end = tx
        tx.words.append((row.version, "end"))
        tx.footprint.append((key, row.sort))

    # ---- the end of a transaction

    def precommit(self, begin):
        tx = self.asked(begin, ACTIVE, "12")
        tx.end = tx.begin if tx.reads_only else self.draw()
        tx.state = PREPARING
        if not tx.reads_only:
            self.stamped.append(tx)
            self.put += [(tx, *it) for it in tx.puts]
            for key in tx.net:
                self.writers.setdefault(key, []).append(tx)
        return f"preparing {tx.end}"

    def changes(self, other, entry):
        """Whether another changes an entry."""
        if len(entry) == 2:
            return entry in other.net
        return any(covers(entry, *it) for it in other.footprint)

    def changed(self, tx, entry):
        """The greatest end between begin and end of one that changes the entry."""
        for other in reversed(self.stamped):
            if other.end < tx.begin:
                break
            if other.end < tx.end and self.changes(other, entry):
                return other.end
        return None

    def validate(self, begin):
        tx = self.asked(begin, PREPARING, "13")
        entries = list(tx.entries)
        if tx.checked < len(entries) and not tx.reads_only:
            stamp = self.changed(tx, entries[tx.checked])
            if stamp:
                self.abort(tx)
                raise Refused(f"21 {stamp}")
        tx.checked += 1
        tx.is_valid = tx.checked >= len(entries)
        return "valid" if tx.is_valid else "more"

    def awaited(self, tx):
        waited = [it for it in tx.depends.values() if it.state == PREPARING]
        return min(waited, key=lambda it: it.end, default=None)

    def settle(self, begin):
        tx = self.asked(begin, PREPARING, "13")
        if not tx.is_valid:
            raise Refused("14")
        other = self.awaited(tx)
        if other:
            return f"waiting {other.begin}"
        tx.state = COMMITTED
        if tx.net:
            bisect.insort(self.unclosed, tx, key=lambda it: it.end)
        return f"committed {tx.end}"

    def rollback(self, begin):
        tx = self.unfinished.get(begin)
        if tx is None:
            raise Refused("10")
        if not tx.is_open():
            raise Refused("11")
        self.abort(tx)
        return "rolled back"

    def abort(self, tx):
        if tx.state == PREPARING and not tx.reads_only:
            self.stamped.remove(tx)
            self.put = [it for it in self.put if it[0] is not tx]
            for key in tx.net:
                self.writers[key].remove(tx)
        tx.state = ABORTED
        for claim in tx.claims:
            del self.claims[claim]
        for other in self.unfinished.values():
            if other.is_open() and tx.begin in other.depends:
                other.flag = other.flag or tx.begin

    def finish(self, begin):
        tx = self.unfinished.get(begin)
        if tx is None:
            raise Refused("10")
        if tx.is_open():
            raise Refused("15")
        held = tx.held()
        if held:
            self.replace(*held[0], tx.end if tx.state == COMMITTED else None)
        if len(held) > 1:
            return "more"
        del self.unfinished[begin]
        return "done"

    def replace(self, version, word, by):
        setattr(version, word, by)
        if version.begin is None and version.end is None:
            self.garbage += 1
        elif word == "end" and by is not None:
            heapq.heappush(self.ends, by)
            self.note_garbage()

    # ---- what is forgotten, and groups

    def note_garbage(self):
        while self.ends and self.ends[0] <= self.start:
            heapq.heappop(self.ends)
            self.garbage += 1

    def oldest_begin(self):
        return min(self.unfinished, default=self.clock)

    def low_water(self):
        ends = (it.end for it in self.stamped if it.state == PREPARING)
        return min(ends, default=self.clock + 1) - 1

    def trim(self, stamp):
        reader = self.unfinished.get(stamp)
        is_held = reader is not None and reader.reads_only
        if not self.start < stamp <= min(self.oldest_begin(), self.low_water()) or is_held:
            raise Refused("56")
        self.start = stamp
        for tx in self.stamped:
            for key, row in tx.net.items() if tx.end <= stamp else ():
                self.base.pop(key, None)
                if row:
                    self.base[key] = row.sort
        self.stamped = [it for it in self.stamped if it.end > stamp]
        self.put = [it for it in self.put if it[0].end > stamp]
        self.note_garbage()
        return f"trimmed {stamp}"

    def collect(self):
        if not self.garbage:
            return "nothing"
        self.garbage -= 1
        return "collected"

    def group(self):
        low_water = self.low_water()
        if low_water == self.closed:
            raise Refused("56")
        if len(self.ring) >= RING:
            raise Refused("36")
        due = [it for it in self.unclosed if it.end <= low_water]
        count, size = 0, 18
        while count < min(len(due), MAX_RECORDS) and size + size_of(due[count]) <= MAX_BODY:
            size += size_of(due[count])
            count += 1
        prev, self.closed = self.closed, low_water if count == len(due) else due[count - 1].end
        self.ring.append(Group(prev, self.closed, due[:count]))
        self.unclosed = self.unclosed[count:]
        return f"closed {prev} {self.closed}"
