"""A client of a store in a folder, over the pipes of a program that runs it (`mvo run DIR`), or that
serves many clients at once (`mvo serve`). Standard library alone.

    from ravundi import Store

    with Store("d") as store:
        with store.transaction(durable=True) as tx:
            tx.insert(0, 5, 50, b"a")
        store.run(lambda tx: tx.update(0, 5, 51, b"b"))

A row has a table (0 to 63), a key and a sort (0 to 2^64 - 1) and up to 4,096 bytes of data. Threads
may share a `Store`: each transaction is one thread's, and commits that are made durable share their
flushes. Of `mvo serve` each thread has a `Client` of its own. Other processes can't open the folder
meanwhile.
"""
from __future__ import annotations

import contextlib
import secrets
import subprocess
import threading
from collections.abc import Callable, Iterator
from typing import BinaryIO, NamedTuple, TypeVar

T = TypeVar("T")
L = TypeVar("L", bound="Lines")
# Another transaction was in the way. The same work may pass under a new begin.
CONFLICTS = (20, 21, 22)
# A pipe holds twice that.
MOST_BYTES = 1 << 15
# How many `finish` lines are sent at once.
FINISHES = 64


class Row(NamedTuple):
    key: int
    sort: int
    data: bytes


class Refused(Exception):
    """A step was refused. `code` is the number, and docs/REFUSALS.md says what it means."""

    def __init__(self, reply: str):
        super().__init__(reply)
        self.code = int(reply.split(" ")[1])


class Ended(Exception):
    """The program has ended. What wasn't answered as durable may be lost; the folder can be opened
    again."""


class Lines:
    """Lines, each with its reply, over two pipes. A thread's lines of one call stay together."""

    def __init__(self, lines: BinaryIO, replies: BinaryIO):
        self.lines, self.replies, self.pipe = lines, replies, threading.Lock()

    def ask(self, *lines: str) -> list[str]:
        """The replies to these lines, between which no other thread's come."""
        replies: list[str] = []
        with self.pipe:
            for some in pieces(lines):
                try:
                    self.lines.write(b"".join(some))
                    self.lines.flush()
                except BrokenPipeError:
                    raise self.ended() from None
                replies += (self.replies.readline().decode().rstrip("\n") for _ in some)
                if not replies[-1]:
                    raise self.ended()
        return replies

    def ended(self) -> Ended:
        """Why there are no replies any more."""
        return Ended("the program has ended, or lets this client go")

    def one(self, line: str) -> str:
        """The reply to a line, if it wasn't refused."""
        reply = self.ask(line)[0]
        if reply.startswith("refused "):
            raise Refused(reply)
        if reply == "bad line":
            raise ValueError(f"this isn't a line: {line[:80]}")
        return reply

    @contextlib.contextmanager
    def transaction(self, durable: bool = False, only_reads: bool = False) -> Iterator[Transaction]:
        """A transaction, which commits where its block ends and is rolled back where that is left by
        an exception. With `durable` it is on the disk then, together with all that committed before.
        One that only reads is shown what there was at its begin, and is never in a conflict."""
        tx = Transaction(self, self.take_name(), "begin-read" if only_reads else "begin")
        try:
            yield tx
        except BaseException:
            tx.leave()
            raise
        end = tx.commit()
        if durable:
            self.make_durable(end)

    def run(self, work: Callable[[Transaction], T], durable: bool = False, times: int = 100) -> T:
        """Does the work in a transaction, again where another was in its way, so many times."""
        for left in range(times, 0, -1):
            try:
                with self.transaction(durable) as tx:
                    return work(tx)
            except Refused as refused:
                if refused.code not in CONFLICTS or left == 1:
                    raise
        raise ValueError("it was to be done no time")

    def close(self) -> None:
        for stream in (self.lines, self.replies):
            with contextlib.suppress(BrokenPipeError):
                stream.close()

    def __enter__(self: L) -> L:
        return self

    def __exit__(self, *_: object) -> None:
        self.close()


class Store(Lines):
    """The store in a folder, which `mvo format` has made, over one `mvo run`. With `keeps` the
    program does what is due between the lines: it flushes, keeps its files few and lets go of what
    nobody can be shown."""

    def __init__(self, folder: str, program: str = "mvo", keeps: bool = True):
        words = [program, "run", folder] + ["--keep"] * keeps
        streams = {"stdin": subprocess.PIPE, "stdout": subprocess.PIPE, "stderr": subprocess.PIPE}
        self.process = subprocess.Popen(words, bufsize=2 * MOST_BYTES, **streams)
        super().__init__(self.process.stdin, self.process.stdout)
        self.turn, self.keeps, self.names = threading.Lock(), keeps, list[str]()
        self.named = self.mark = 0

    def ended(self) -> Ended:
        status = self.process.wait()
        text = self.process.stderr.read().decode(errors="replace").strip()
        return Ended(f"the program has ended with {status}: {text or 'it was killed'}")

    def make_durable(self, end: int) -> None:
        """Waits until all that committed up to this end is on the disk. One thread flushes for all
        that have committed meanwhile."""
        while self.mark < end:
            with self.turn:
                if self.mark < end:
                    self.flush()

    def flush(self) -> None:
        """Makes a group of commits durable."""
        reply = self.ask("flush")[0]
        if reply.startswith("durable "):
            self.mark = int(reply.split(" ")[1])
        elif reply != "refused 52" or not self.keeps:
            # A job of what is kept that was in the way goes on with each line.
            raise Refused(reply)

    def close(self) -> None:
        """Makes all durable that has committed, and ends the program. Transactions that are open are
        gone."""
        try:
            before = -1
            while self.process.poll() is None and before < self.mark:
                before = self.mark
                self.flush()
        finally:
            super().close()
            self.process.stderr.close()
            self.process.wait()

    def leave(self, name: str) -> None:
        """Rolls back. Each `finish` lets go of one thing that the transaction wrote."""
        self.ask(f"rollback {name}")
        while self.ask(*[f"finish {name}"] * FINISHES)[-1] == "more":
            pass

    def take_name(self) -> str:
        """A name that no open transaction has."""
        with self.pipe:
            if not self.names:
                self.named += 1
                self.names.append(f"t{self.named}")
            return self.names.pop()

    def give_name(self, name: str) -> None:
        self.names.append(name)


class Client(Lines):
    """One client of a program that serves (`mvo serve`), by its number, over the pipes of a folder.
    It has one transaction at a time, so each thread takes a client of its own."""

    def __init__(self, pipes: str, number: int):
        lines = open(f"{pipes}/{number}.in", "wb", buffering=2 * MOST_BYTES)
        super().__init__(lines, open(f"{pipes}/{number}.out", "rb", buffering=2 * MOST_BYTES))
        self.begin_client(f"client {secrets.token_hex(8)}")

    def begin_client(self, line: str) -> None:
        """Begins a client. One that went just before may have left half a line, a transaction and
        replies that it didn't read."""
        try:
            self.lines.write(f"\n{line}\n".encode())
            self.lines.flush()
        except BrokenPipeError:
            raise self.ended() from None
        for reply in self.replies:
            if reply.decode() == f"{line}\n":
                return
        raise self.ended()

    def make_durable(self, end: int) -> None:
        """Waits until all that this client has committed is on the disk. Clients that wait at the
        same time share a flush."""
        self.one("durable")

    def stop(self) -> None:
        """Ends the program for all clients."""
        self.one("stop")

    def leave(self, name: str) -> None:
        self.ask("leave")

    def take_name(self) -> str:
        return "t"

    def give_name(self, name: str) -> None:
        pass


class Transaction:
    """An open transaction. Each call is one line, and Refused says why it wasn't done."""

    def __init__(self, store: Store | Client, name: str, line: str):
        self.store, self.name = store, name
        try:
            self.id = int(store.one(f"{line} {name}").split(" ")[1])
        except Refused:
            store.give_name(name)
            raise

    def read(self, table: int, key: int) -> Row | None:
        """The row at the key."""
        words = self.store.one(f"read {self.name} {table} {key}").split(" ")
        return Row(key, int(words[1]), data_of(words[2])) if words[0] == "row" else None

    def scan(self, table: int, low: int, high: int) -> list[Row]:
        """The rows of the table with a sort from `low` to `high`, by sort and then by key."""
        words = self.store.one(f"scan {self.name} {table} {low} {high}").split(" ")[2:]
        rows = (it.split(":") for it in words)
        return [Row(int(key), int(sort), data_of(data)) for key, sort, data in rows]

    def insert(self, table: int, key: int, sort: int, data: bytes) -> bool:
        """Puts a row where there is none, and says whether there was none."""
        return self.write("insert", table, key, sort, data) == "inserted"

    def update(self, table: int, key: int, sort: int, data: bytes) -> bool:
        """Replaces the row at the key, and says whether there was one."""
        return self.write("update", table, key, sort, data) == "updated"

    def put(self, table: int, key: int, sort: int, data: bytes) -> None:
        """Puts a row, in the place of one that is there."""
        if not self.update(table, key, sort, data):
            self.insert(table, key, sort, data)

    def delete(self, table: int, key: int) -> bool:
        """Deletes the row at the key, and says whether there was one."""
        return self.store.one(f"delete {self.name} {table} {key}") == "deleted"

    def write(self, word: str, table: int, key: int, sort: int, data: bytes) -> str:
        return self.store.one(f"{word} {self.name} {table} {key} {sort} {data.hex() or '-'}")

    def commit(self) -> int:
        """Commits, and answers the end timestamp. Refused, it is rolled back."""
        try:
            reply = self.store.one(f"commit {self.name}")
        except BaseException:
            self.leave()
            raise
        self.store.give_name(self.name)
        return int(reply.split(" ")[1])

    def leave(self) -> None:
        """Rolls back."""
        with contextlib.suppress(Ended):
            self.store.leave(self.name)
            self.store.give_name(self.name)


def data_of(word: str) -> bytes:
    """The bytes that a word of a reply stands for."""
    return bytes.fromhex(word.removeprefix("-"))


def pieces(lines: tuple[str, ...]) -> Iterator[list[bytes]]:
    """The lines in pieces that a pipe holds whole. Each piece's replies are read before the next one
    is sent, so neither side waits for the other for ever, however long the replies are."""
    some: list[bytes] = []
    size = 0
    for line in lines:
        sent = f"{line}\n".encode()
        if some and size + len(sent) > MOST_BYTES:
            yield some
            some, size = [], 0
        some.append(sent)
        size += len(sent)
    if some:
        yield some
