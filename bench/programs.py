"""The programs that `bench/compare` and `bench/counts` run: the event core, and the peers."""
import os
import shutil
import subprocess
import tempfile

HERE = os.path.dirname(os.path.abspath(__file__))
PEERS = os.path.join(HERE, "peers")
BUILT = os.path.join(os.path.dirname(HERE), "crates", "bench_core", "out", "bench_core")

# Each peer with its library, and the package that has it.
LIBRARIES = {
    "lmdb": ("lmdb", "lmdb.h", "liblmdb-dev"),
    "sqlite": ("sqlite3", "sqlite3.h", "libsqlite3-dev"),
    "wiredtiger": ("wiredtiger", "wiredtiger.h", "libwiredtiger-dev"),
    "berkeleydb": ("db", "db.h", "libdb5.3-dev"),
    "rocksdb": ("rocksdb", "rocksdb/db.h", "librocksdb-dev"),
}


def is_installed(header):
    command = ["g++", "-E", "-x", "c++", "-"]
    text = f"#include <{header}>\n".encode()
    quiet = subprocess.DEVNULL
    return subprocess.run(command, input=text, stdout=quiet, stderr=quiet).returncode == 0


def compiled(name, compiler, *options):
    """Compiles a file of `bench/peers`, whose program it answers."""
    out = os.path.join(PEERS, "out")
    os.makedirs(out, exist_ok=True)
    program = os.path.join(out, name.partition(".")[0])
    command = [compiler, "-O2", "-o", program, os.path.join(PEERS, name), *options]
    subprocess.run(command, check=True)
    return program


def build(name):
    """Compiles the program of a peer."""
    return compiled(f"{name}.cc", "g++", "-std=c++17", f"-l{LIBRARIES[name][0]}", "-lpthread")


def run_in_folder(command):
    """Runs a command with a folder of its own in memory, which is gone afterwards."""
    top = "/dev/shm" if os.path.isdir("/dev/shm") else None
    folder = tempfile.mkdtemp(prefix="ravundi-peer-", dir=top)
    try:
        return subprocess.run(command(folder), capture_output=True, text=True)
    finally:
        shutil.rmtree(folder, ignore_errors=True)


def checksums(done):
    """The checksums that a program printed, by workload."""
    return dict(line.split(": ") for line in done.stdout.splitlines())
