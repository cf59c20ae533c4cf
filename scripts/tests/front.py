"""What scripts/tests/memory-test, scripts/tests/random-folder-test and scripts/tests/sync-test
share: running the program with a library in front of the system's."""
import concurrent.futures
import mmap
import multiprocessing
import os
import shutil
import signal
import struct
import subprocess
import sys

HERE = os.path.dirname(os.path.abspath(__file__))
PAGE = 4096
NUMBERS = 9
ASKED, FIRST, BEHIND, REFUSED = range(4)
THREADS, FIRST_THREAD, BEHIND_THREAD, REFUSED_THREADS, LARGEST = range(4, NUMBERS)
# Behind every allocation.
NEVER = 2**64 - 1
# Lines that are steps of the store, or all of a job, but for `take`, which calls no disk.
STORE = {
    "body", "open", "flush", "rotate-write", "checkpoint-read", "checkpoint-data",
    "checkpoint-delta", "merge-read", "merge-data", "merge-delta", "install-close", "install-body",
    "install-open", "reclaim", "rotate", "checkpoint", "merge",
}  # fmt: skip
PROCESSORS = len(os.sched_getaffinity(0))


def compilers():
    """The compilers of C that are on the path, and the toolchain's."""
    for name in ("cc", "clang", "gcc"):
        if shutil.which(name):
            yield [name]
    kit = shutil.which("rt")
    if kit:
        above = os.path.dirname(os.path.dirname(os.path.realpath(kit)))
        yield [os.path.join(above, "toolchain", "bin", "clang"), "-fuse-ld=lld"]


def make_library(folder, name="front"):
    """Compiles one of the libraries here into a folder, and answers its path."""
    made = os.path.join(folder, f"{name}.so")
    words = ["-O1", "-shared", "-fPIC", "-nostdlib", "-o", made, os.path.join(HERE, f"{name}.c")]
    for compiler in compilers():
        if subprocess.run([*compiler, *words], check=False).returncode == 0:
            return made
    sys.exit(f"{os.path.basename(sys.argv[0])}: there's no compiler of C: put cc or rt on the path")


def hangs(*_):
    raise TimeoutError


def tell_hangs():
    """Makes of each `signal.alarm` that isn't called off a TimeoutError."""
    signal.signal(signal.SIGALRM, hangs)


def pool_of(begins, given):
    """As many processes as there are processors, each of which begins so. Where one is killed, the
    next answer is an exception."""
    fork = multiprocessing.get_context("fork")
    return concurrent.futures.ProcessPoolExecutor(PROCESSORS, fork, begins, given)


class Library:
    """A library in front of a process, and so many bytes that it and this test have mapped."""

    def __init__(self, library, path, size):
        with open(path, "wb") as file:
            file.truncate(size)
        with open(path, "r+b") as file:
            self.page = mmap.mmap(file.fileno(), size)
        self.environment = {**os.environ, "LD_PRELOAD": library, "MVO_FRONT": path}

    def start(self, words, streams):
        """Starts a process, with these as its standard streams, and answers its number."""
        actions = [(os.POSIX_SPAWN_DUP2, file, at) for at, file in enumerate(streams)]
        return os.posix_spawn(words[0], words, self.environment, file_actions=actions)


class Front(Library):
    """What the library of front.c is told, and what it tells, of one process at a time."""

    def __init__(self, library, path):
        super().__init__(library, path, PAGE)

    def __getitem__(self, number):
        return struct.unpack_from("<Q", self.page, 8 * number)[0]

    def refuse(self, first, behind, threads=(0, 0)):
        """Begins to count anew. Allocations and threads from one on to before another are refused,
        counted from 1."""
        numbers = (0, first, behind, 0, 0, *threads, 0, 0)
        self.page[:] = struct.pack(f"<{NUMBERS}Q", *numbers).ljust(PAGE, b"\0")

    def refuse_next(self, first, behind):
        """The same of those that are still to come: the next one is number 1."""
        asked = self[ASKED]
        first, behind = min(asked + first, NEVER), min(asked + behind, NEVER)
        struct.pack_into("<QQ", self.page, 8 * FIRST, first, behind)

    def peak(self):
        """How many bytes of memory the process had at most, or asked for at once, once it has
        ended."""
        status = self.page[8 * NUMBERS :]
        found = status.partition(b"VmHWM:")[2].split(b"kB")[0]
        return max(int(found) * 1024, self[LARGEST])


class Run:
    """A process of `mvo run`, to which lines are given one at a time."""

    def __init__(self, front, room, words):
        self.told = os.path.join(room, "told")
        lines, self.lines = os.pipe()
        self.replies, replies = os.pipe()
        told = os.open(self.told, os.O_WRONLY | os.O_CREAT | os.O_TRUNC)
        self.process = front.start(words, (lines, replies, told))
        for file in (lines, replies, told):
            os.close(file)
        self.read = b""
        self.is_over = False

    def ask(self, line):
        """The reply to a line; None where the process has ended."""
        try:
            os.write(self.lines, line.encode("utf-8", "surrogateescape") + b"\n")
        except BrokenPipeError:
            return None
        while b"\n" not in self.read:
            piece = os.read(self.replies, 65_536)
            if not piece:
                return None
            self.read += piece
        reply, _, self.read = self.read.partition(b"\n")
        return reply.decode()

    def end(self):
        """Gives no more lines: the exit status, what was printed beyond, and standard error."""
        os.close(self.lines)
        while piece := os.read(self.replies, 65_536):
            self.read += piece
        os.close(self.replies)
        _, status = os.waitpid(self.process, 0)
        self.is_over = True
        with open(self.told, encoding="utf-8", errors="replace") as file:
            told = file.read()
        return os.waitstatus_to_exitcode(status), self.read.decode(), told

    def kill(self):
        if not self.is_over:
            os.kill(self.process, signal.SIGKILL)
            os.waitpid(self.process, 0)
            os.close(self.lines)
            os.close(self.replies)


def read_lines(path):
    # A line ends with a line feed alone, which the last one may lack.
    with open(path, encoding="utf-8", errors="surrogateescape", newline="\n") as file:
        return file.read().removesuffix("\n").split("\n")


def files_in(folder):
    found = {}
    for name in os.listdir(folder):
        with open(os.path.join(folder, name), "rb") as file:
            found[name] = file.read()
    return found


def put_files(folder, files):
    """Makes the folder's files these."""
    for name in os.listdir(folder):
        if name not in files:
            os.remove(os.path.join(folder, name))
    for name, data in files.items():
        with open(os.path.join(folder, name), "wb") as file:
            file.write(data)


def is_store_line(line):
    return line.split(" ")[0] in STORE


def is_as_after_a_fault(line, got, wanted):
    """Whether a line may be answered so once the disk had a fault."""
    word = line.split(" ")[0]
    if is_store_line(line):
        return got == "refused 51"
    if word == "take":
        return got in ("refused 51", wanted)
    if word == "group":
        return got.startswith("closed ") or got in ("refused 56", "refused 36")
    if word == "poll" and wanted == "yes":
        return got in ("yes", "no")
    return got == wanted
