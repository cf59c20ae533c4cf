"""Clients of `bench/serve` in Python: each makes durable transactions, which read two rows and update
them, until a time is over.

    peers.py WHAT PLACE CLIENTS SECONDS KEYS [PROGRAM]

WHAT is `serve` (a process for each client of a program that serves, over the pipes in PLACE), `run`
(a thread for each over the pipes of one program that runs the store in PLACE) or `sqlite` (a process
for each over the base PLACE, in WAL mode with synchronous=FULL). Prints how many were durable, and
how many were done again.
"""
import multiprocessing
import os
import random
import sqlite3
import sys
import threading
import time

sys.dont_write_bytecode = True
TOP = os.path.dirname(os.path.dirname(os.path.dirname(os.path.abspath(__file__))))
sys.path.insert(0, os.path.join(TOP, "clients", "python"))
from ravundi import CONFLICTS, Client, Refused, Store  # noqa: E402


def move(tx, one, two):
    """Reads two rows and updates them."""
    here, there = tx.read(0, one), tx.read(0, two)
    tx.update(0, one, here.sort + 1, here.data)
    tx.update(0, two, there.sort + 1, there.data)


def counted(step, number, end, keys):
    """How often the step was done until the end, and how often it was done again."""
    draw, done, again = random.Random(number), 0, 0
    while time.time() < end:
        one, two = draw.sample(range(keys), 2)
        if step(one, two):
            done += 1
        else:
            again += 1
    return done, again


def by_lines(store, one, two):
    """A transaction by lines. It is answered whether it committed."""
    try:
        with store.transaction(durable=True) as tx:
            move(tx, one, two)
        return True
    except Refused as refused:
        if refused.code not in CONFLICTS:
            raise
        return False


def of_serve(pipes, number, end, keys):
    with Client(pipes, number + 1) as client:
        return counted(lambda *two: by_lines(client, *two), number, end, keys)


def opened(path):
    base = sqlite3.connect(path, timeout=600, isolation_level=None)
    base.execute("pragma journal_mode=wal")
    base.execute("pragma synchronous=full")
    return base


def by_sqlite(base, one, two):
    base.execute("begin immediate")
    for key in (one, two):
        sort, data = base.execute("select sort, data from rows where key=?", (key,)).fetchone()
        base.execute("update rows set sort=?, data=? where key=?", (sort + 1, data, key))
    base.execute("commit")
    return True


def of_sqlite(path, number, end, keys):
    base = opened(path)
    return counted(lambda *two: by_sqlite(base, *two), number, end, keys)


def make_base(path, keys):
    """Makes the base with its rows."""
    base = opened(path)
    base.execute("create table rows(key integer primary key, sort integer, data blob)")
    base.execute("create index sorts on rows(sort, key)")
    rows = ((key, key, bytes(100)) for key in range(keys))
    base.execute("begin")
    base.executemany("insert into rows values(?, ?, ?)", rows)
    base.execute("commit")
    base.close()


def by_processes(work, place, clients, seconds, keys):
    end = time.time() + seconds
    with multiprocessing.get_context("fork").Pool(clients) as pool:
        given = [(place, number, end, keys) for number in range(clients)]
        return pool.starmap(work, given, chunksize=1)


def by_threads(place, clients, seconds, keys, program):
    end, counts = time.time() + seconds, [(0, 0)] * clients
    with Store(place, program) as store:

        def work(number):
            counts[number] = counted(lambda *two: by_lines(store, *two), number, end, keys)

        running = [threading.Thread(target=work, args=(it,)) for it in range(clients)]
        for it in running:
            it.start()
        for it in running:
            it.join()
    return counts


def main(what, place, clients, seconds, keys, program="mvo"):
    clients, seconds, keys = int(clients), float(seconds), int(keys)
    if what == "run":
        counts = by_threads(place, clients, seconds, keys, program)
    else:
        work = of_serve if what == "serve" else of_sqlite
        counts = by_processes(work, place, clients, seconds, keys)
    print(sum(done for done, _ in counts), sum(again for _, again in counts))


if __name__ == "__main__":
    main(*sys.argv[1:])
