"""Plain worlds each with a wrong rule: scripts/tests/random-run-test shows that its lines tell each
of them from the right one."""
from plain_core import ABORTED, ACTIVE, COMMITTED, PREPARING, Core, Refused, Version, covers
from plain_store import Pair, Store


class SkipsRanges(Core):
    """Checks no range, so that a row may come into a scan."""

    def changes(self, other, entry):
        return len(entry) == 2 and super().changes(other, entry)


class SkipsKeys(Core):
    """Checks no key."""

    def changes(self, other, entry):
        return len(entry) != 2 and super().changes(other, entry)


class ForgetsEnded(Core):
    """Checks a range by the rows that were put, and not by those that were ended."""

    def changes(self, other, entry):
        if len(entry) == 2:
            return super().changes(other, entry)
        return any(covers(entry, *it) for it in other.puts)


class ChecksSettled(Core):
    """Checks against those that are Committed alone."""

    def changes(self, other, entry):
        return other.state == COMMITTED and super().changes(other, entry)


class NamesFirst(Core):
    """Names the least end by which an entry differs."""

    def changed(self, tx, entry):
        ends = [it.end for it in self.stamped
                if tx.begin < it.end < tx.end and self.changes(it, entry)]  # fmt: skip
        return min(ends, default=None)


class ShowsActive(Core):
    """Shows what others have written that are Active."""

    def row(self, tx, key):
        for other in self.unfinished.values():
            if other.state == ACTIVE and key not in tx.net and other.net.get(key):
                return other.net[key]
        return super().row(tx, key)


class HidesPreparing(Core):
    """Shows nothing that isn't settled."""

    def last_writer(self, key, begin):
        for tx in reversed(self.writers.get(key, ())):
            if tx.end < begin and tx.state == COMMITTED:
                return tx
        return None


class ShowsRemoved(Core):
    """Shows a row that was deleted."""

    def row(self, tx, key):
        row = super().row(tx, key)
        if row or key in tx.net:
            return row
        writers = [it for it in self.writers.get(key, ()) if it.end < tx.begin and it.net[key]]
        return writers[-1].net[key] if writers else None


class HidesOwn(Core):
    """Doesn't show a transaction its own rows in a scan."""

    def scan(self, tx, op):
        own, tx.net = tx.net, {}
        try:
            return super().scan(tx, op)
        finally:
            tx.net = own


class EndsRange(Core):
    """Leaves the last sort of a range out."""

    def scan(self, tx, op):
        table, low, high = op.entry
        op.entry = table, low, high - 1
        return super().scan(tx, op)


class ForgetsDependencies(Core):
    """Depends on nobody."""

    def depend(self, tx, entry):
        pass


class DependsOnShown(Core):
    """Depends, by a scan, on those alone whose rows it is shown."""

    def counting(self, tx, entry):
        found = super().counting(tx, entry)
        return {it for it in found if len(entry) == 2 or self.row(tx, it)}


class DependsOnAll(Core):
    """Depends on each who is Preparing and wrote, and not on the last one alone."""

    def depend(self, tx, entry):
        for key in self.counting(tx, entry) - set(tx.net):
            for other in self.writers.get(key, ()):
                if other.end < tx.begin and other.state == PREPARING:
                    tx.depends[other.begin] = other


class SettlesAtOnce(Core):
    """Waits for nobody."""

    def awaited(self, tx):
        return None


class WaitsForLast(Core):
    """Names the one with the greatest end that is waited for."""

    def awaited(self, tx):
        waited = [it for it in tx.depends.values() if it.state == PREPARING]
        return max(waited, key=lambda it: it.end, default=None)


class NamesLastAborted(Core):
    """Names the last one that was aborted of those that it depends on."""

    def abort(self, tx):
        super().abort(tx)
        for other in self.unfinished.values():
            if other.is_open() and tx.begin in other.depends:
                other.flag = tx.begin


class PassesFlags(Core):
    """Flags those, too, who depend on one that is flagged."""

    def abort(self, tx):
        super().abort(tx)
        flagged = [it for it in self.unfinished.values() if it.flag and it.is_open()]
        for other in self.unfinished.values():
            for it in flagged:
                if other.is_open() and not other.flag and it.begin in other.depends:
                    other.flag = it.begin


class KeepsClaims(Core):
    """Who was aborted is in the way still."""

    def abort(self, tx):
        claims = dict(tx.claims)
        super().abort(tx)
        self.claims.update((it, tx) for it in claims)

    def unless_claimed(self, tx, key):
        other = self.claims.get((key, self.origin(tx, key)))
        if other and other.state == ABORTED and self.row(tx, key) and key not in tx.net:
            raise Refused(f"20 active {other.begin}")
        super().unless_claimed(tx, key)


class ForgetsClaims(Core):
    """Who is Committed isn't in the way any more."""

    def unless_claimed(self, tx, key):
        other = self.claims.get((key, self.origin(tx, key)))
        if not other or other.state != COMMITTED:
            super().unless_claimed(tx, key)


class KeepsWords(Core):
    """Counts words that another has taken over."""

    def end_row(self, tx, key, row):
        old = row.version.end
        if old and old is not tx:
            kept = Version(0)
            kept.end = old
            old.words.append((kept, "end"))
        super().end_row(tx, key, row)


class ChecksReaders(Core):
    """Checks what a read-only transaction looked at up to now."""

    def validate(self, begin):
        tx = self.unfinished.get(begin)
        if tx and tx.reads_only and tx.state == PREPARING and not tx.flag:
            for entry in tx.entries:
                for other in self.stamped:
                    if other.end > tx.begin and self.changes(other, entry):
                        self.abort(tx)
                        raise Refused(f"21 {other.end}")
        return super().validate(begin)


class DrawsForReaders(Core):
    """Draws an end for a read-only transaction."""

    def precommit(self, begin):
        tx = self.unfinished.get(begin)
        reply = super().precommit(begin)
        if tx.reads_only:
            tx.end = self.draw()
        return reply


class HoldsBack(Core):
    """Holds groups back for a read-only transaction that is Preparing."""

    def low_water(self):
        ends = [it.end for it in self.unfinished.values() if it.state == PREPARING]
        return min(ends, default=self.clock + 1) - 1


class TrimsReaders(Core):
    """Trims up to the begin of a read-only transaction."""

    def trim(self, stamp):
        reader = self.unfinished.get(stamp)
        if reader is not None and reader.reads_only:
            del self.unfinished[stamp]
            try:
                return super().trim(stamp)
            finally:
                self.unfinished[stamp] = reader
        return super().trim(stamp)


class TrimsAll(Core):
    """Trims beyond the begin of an unfinished transaction."""

    def oldest_begin(self):
        return self.clock


class CollectsEarly(Core):
    """Takes replaced versions above the start."""

    def note_garbage(self):
        self.garbage += len(self.ends)
        self.ends.clear()


class CollectsUnfinished(Core):
    """Takes what an aborted transaction put before that is finished."""

    def abort(self, tx):
        super().abort(tx)
        self.garbage += bool(tx.puts)


class ClosesAll(Core):
    """Closes groups beyond one that is Preparing."""

    def low_water(self):
        return self.clock


class ClosesOne(Core):
    """Closes groups of one commit."""

    def low_water(self):
        low_water = super().low_water()
        due = [it.end for it in self.unclosed if it.end <= low_water]
        return due[0] if len(due) > 1 else low_water


class AsksInOrder(Core):
    """Looks at the table before it looks whether the transaction is read-only."""

    def operate(self, begin, op):
        tx = self.unfinished.get(begin)
        is_asked = tx and tx.state == ACTIVE and not tx.flag
        if is_asked and tx.reads_only and op.table > 63:
            raise Refused("34")
        return super().operate(begin, op)


class SettlesUnchecked(Core):
    """Settles what isn't validated."""

    def settle(self, begin):
        tx = self.unfinished.get(begin)
        if tx and tx.state == PREPARING and not tx.flag:
            tx.is_valid = True
        return super().settle(begin)


class TakesNext(Store):
    """Takes a file behind all that are used."""

    def free(self, count):
        return [max({2, *self.used()}) + 1 + it for it in range(count)]


class ForgetsTaken(Store):
    """Reclaims the files that a job takes."""

    def used(self):
        jobs, (self.job, self.merge) = (self.job, self.merge), (None, None)
        try:
            return super().used()
        finally:
            self.job, self.merge = jobs


class KeepsDead(Store):
    """Has a merge keep what died since its pairs were read."""

    def merge_read(self, place):
        reply = super().merge_read(place)
        self.merge.pairs = [*self.merge.pairs, set.union(*(it.live for it in self.merge.pairs))]
        return reply

    def install_open(self):
        job, reply = self.job, super().install_open()
        if job.kind == "merge":
            at = next(at for at, it in enumerate(self.pairs) if it.files == tuple(job.files))
            self.pairs[at] = Pair(*job.files, job.pairs[2])
        return reply


class ForgetsDeltas(Store):
    """Has a checkpoint leave the records of older pairs alive."""

    def checkpoint_read(self):
        reply = super().checkpoint_read()
        self.job.deltas = 0
        return reply


class RotatesBeside(Store):
    """Rotates beside a merge."""

    def rotate_write(self):
        merge, self.merge = self.merge, None
        try:
            return super().rotate_write()
        finally:
            self.merge = merge


class InstallsBeside(Store):
    """Installs a rotation beside a written body."""

    def install_open(self):
        written, self.is_written = self.is_written, False
        try:
            return super().install_open()
        finally:
            self.is_written = written


class TakesTwo(Store):
    """Takes a group beside one that is pending."""

    def take(self, ring):
        if self.pending and ring and not self.is_written:
            self.pending = None
        return super().take(ring)


class RaisesEarly(Store):
    """Raises the mark with a group's body."""

    def body(self):
        reply = super().body()
        self.mark = self.pending.mark
        return reply


CORES = [it for it in list(globals().values())
         if isinstance(it, type) and issubclass(it, Core) and it is not Core]  # fmt: skip
STORES = [it for it in list(globals().values())
          if isinstance(it, type) and issubclass(it, Store) and it is not Store]  # fmt: skip
