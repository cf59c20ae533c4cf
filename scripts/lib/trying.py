"""Trying edits: wrong bodies, each of which the prover must refuse.

An edit is refused where a function that it changes isn't proved with it. What a function is proved
by are its own body and the contracts of those that it calls, so one check tries edits of several
functions. Where one of them isn't proved only since another isn't, its edit is tried again. An edit
that changes a contract, a definition or what lies in no function is tried alone by the toolchain,
over the whole crate, and so is one whose functions are proved.
"""
import os
import re
import shutil
import subprocess
import tempfile
import threading

import libraries
from sources import blanked, closing, read

# How many edits one check tries.
MOST = 16
REFUSED, BAD, UNTRIED = "refused", "BAD EDIT", "NOT TRIED"
FUNCTION = re.compile(r"^([ \t]*)(?:pub(?:\([a-z]+\))? )?(?:const )?fn (\w+)", re.M)
OWNER = re.compile(r"^(?:pub(?:\([a-z]+\))? )?(?:impl|trait)\b([^{]*)\{", re.M)
CLAUSE = re.compile(r"\b(?:requires|ensures|invariant|decreases|ghost)\b")
STATUS = re.compile(r"^fn (\S+): (.*)$", re.M)
# What is printed of a function that would be proved if another were.
RESTS = "it calls "
# The last line where the functions were tried.
ENDED = re.compile(r"^only=\d+ proved=", re.M)
# What is printed where a name fits no function, or several.
UNKNOWN = re.compile(r"^rattle: error: .*(?:has no function|several functions).*`([^`]+)`: help", re.M)
# What the toolchain says of an edit that it tried alone.
TRIED = re.compile(r"^rt: must-fail \S+/(\S+)\.edit: ([Rr]efused|NOT REFUSED|BAD EDIT|NOT TRIED)(.*)$", re.M)


def changes_of(path):
    """What an edit changes: files, with the texts that go and those that come."""
    found, file, old = [], None, None
    for line in read(path).split("\n"):
        word, _, text = line.partition(" ")
        if word == "file:":
            file = text.strip()
        elif word == "old:":
            old = text
        elif word == "new:":
            found.append((file, old, text))
    return found


def owner_of(head):
    """The toolchain's name for what an impl or a trait has: the type's, and the trait's behind it."""
    kept, depth = "", 0
    for it in head.replace("->", ""):
        depth -= it == ">"
        kept += it if depth == 0 and it not in "<>" else ""
        depth += it == "<"
    names = [it.split("::")[-1].rstrip(":") for it in kept.split("where")[0].split()]
    if "for" in names:
        at = names.index("for")
        return names[at + 1] + names[at - 1]
    return names[0]


def functions_of(file, text):
    """The functions of a file of src/: where each begins and ends, and the end of its name that the
    toolchain finds it by: of a method's that is the type, which may be declared in another file."""
    code = blanked(text)
    module = file[len("src/") : -len(".rt")].split("/")
    if module[-1] in ("lib", "main", "mod"):
        module.pop()
    owners = [(it.start(), closing(code, it.end() - 1), it[1]) for it in OWNER.finditer(code)]
    for it in FUNCTION.finditer(code):
        end = code.find(f"\n{it[1]}}}", it.start())
        inside = [owner_of(head) for begin, until, head in owners if begin < it.start() < until]
        name = "::".join([*(inside[-1:] or module), it[2]])
        yield it.start(), end if end >= 0 else len(code), name


class Stopped(Exception):
    """Trying was stopped."""


class Commands:
    """The commands that run, in any thread."""

    def __init__(self):
        self.lock, self.running, self.is_over = threading.Lock(), set(), False

    def begin(self, words, folder):
        how = {"stdout": subprocess.PIPE, "stderr": subprocess.STDOUT, "errors": "replace"}
        with self.lock:
            if self.is_over:
                raise Stopped
            begun = subprocess.Popen(words, cwd=folder, stdin=subprocess.DEVNULL, **how)
            self.running.add(begun)
            return begun

    def said_by(self, words, folder):
        """What a command prints that is run in a folder."""
        with self.begin(words, folder) as begun:
            said = begun.communicate()[0]
        self.running.discard(begun)
        if self.is_over:
            raise Stopped
        return said

    def stop(self):
        """Ends the commands, and lets none begin."""
        with self.lock:
            self.is_over = True
            for it in self.running:
                it.terminate()


COMMANDS = Commands()


class Edit:
    """An edit of a crate: what it changes, and in which functions, as far as it's in functions."""

    def __init__(self, path):
        self.path = path
        self.crate, self.name = path.split("/")[1], os.path.basename(path)[: -len(".edit")]
        self.changes = changes_of(path)
        self.functions, self.is_local, self.why = set(), True, None
        for file, old, new in self.changes:
            self.place(file, old, new)

    def place(self, file, old, new):
        path = f"crates/{self.crate}/{file}"
        text = read(path) if os.path.isfile(path) else ""
        if text.count(old) != 1:
            self.why = f"its text stands {text.count(old)} times in {file}: {old}"
            return
        at = text.index(old)
        functions = functions_of(file, text) if file.startswith("src/") else ()
        inside = [name for begin, end, name in functions if begin <= at < end]
        self.functions.update(inside[-1:])
        if not inside or CLAUSE.search(old + new):
            self.is_local = False

    def is_of(self, name):
        """Whether it changes the function that the toolchain knows by this name."""
        return any(name.endswith(f"::{it}") for it in self.functions)


class Room:
    """A copy of a crate and of what is built below it, in which its edits are tried. `is_built` says
    that one run of `rt ci` built all of that, of these files."""

    def __init__(self, crate, under, is_built):
        self.top = tempfile.mkdtemp(prefix="mvo-edits-")
        self.folder = f"{self.top}/crates/{crate}"
        for name in [*under, crate]:
            # What was kept of the crate's own proof is kept of the parts that no edit changes.
            kept = ("out/incremental",) if name == crate else ()
            for part in ("src", "specs", "proofs", "out/rlib", *kept):
                if os.path.isdir(f"crates/{name}/{part}"):
                    shutil.copytree(f"crates/{name}/{part}", f"{self.top}/crates/{name}/{part}")
        shutil.copy2("HANDLES", self.top)
        # The toolchain wants to find each crate that is listed.
        here = [it for it in read("crates.txt").split("\n") if it.split(":")[0] in [*under, crate]]
        self.write("../../crates.txt", "\n".join(here) + "\n")
        if is_built:
            libraries.take(self.top)

    def write(self, file, text):
        with open(f"{self.folder}/{file}", "w", encoding="utf-8") as to:
            to.write(text)

    def edited(self, edits):
        """The texts with some edits, by file. None where two of them change one text."""
        texts = {}
        for file, old, new in (change for it in edits for change in it.changes):
            text = texts.get(file) or read(f"{self.folder}/{file}")
            if text.count(old) != 1:
                return None
            texts[file] = text.replace(old, new)
        return texts

    def check(self, edits):
        """What a check of the functions that some edits change prints with them."""
        texts = self.edited(edits)
        was = {file: read(f"{self.folder}/{file}") for file in texts}
        only = [word for it in edits for name in sorted(it.functions) for word in ("--only", name)]
        for file, text in texts.items():
            self.write(file, text)
        try:
            return COMMANDS.said_by(["rt", "check", "--jobs", "1", *only], self.folder)
        finally:
            for file, text in was.items():
                self.write(file, text)

    def must_fail(self, crate, edits):
        """What the toolchain says of edits that it tries alone."""
        os.makedirs(f"{self.folder}/must-fail")
        for it in edits:
            shutil.copy2(it.path, f"{self.folder}/must-fail")
        return COMMANDS.said_by(["rt", "must-fail", crate], self.top)

    def end(self):
        shutil.rmtree(self.top, ignore_errors=True)


class Trying:
    """Tries the edits of one crate. What came of each is told to `tell`."""

    def __init__(self, crate, under, edits, tell, is_built):
        self.crate, self.edits, self.tell = crate, edits, tell
        self.room = Room(crate, under, is_built)
        # Those that the toolchain tries alone.
        self.alone = []

    def run(self):
        try:
            left = []
            for it in self.edits:
                if it.why:
                    self.tell(it, BAD, it.why)
                else:
                    (left if it.is_local else self.alone).append(it)
            while left:
                left = self.try_some(left)
            if self.alone:
                self.try_alone()
        finally:
            self.room.end()

    def chosen(self, edits):
        """Of the edits the first ones of which each changes other functions and other texts."""
        found, functions = [], set()
        for it in edits:
            is_apart = not it.functions & functions and self.room.edited([*found, it]) is not None
            if len(found) < MOST and is_apart:
                found.append(it)
                functions |= it.functions
        return found

    def try_some(self, edits):
        """Tries some of the edits by one check, and answers those that are left."""
        some = self.chosen(edits)
        left = [it for it in edits if it not in some]
        said = self.room.check(some)
        unknown = [it for it in some if it.functions & {*UNKNOWN.findall(said)}]
        if unknown:
            self.alone += unknown
            return [it for it in edits if it not in unknown]
        is_read = ENDED.search(said)
        again = [it for it in some if not is_read or not self.judge(it, said, len(some) == 1)]
        if is_read and len(again) < len(some):
            return [*again, *left]
        # They can't be read together, or rest on one another.
        for it in again:
            self.judge(it, said if len(some) == 1 else self.room.check([it]), True)
        return left

    def judge(self, edit, said, is_alone):
        """Tells what came of an edit, and answers whether that is known."""
        mine = [told for name, told in STATUS.findall(said) if edit.is_of(name)]
        refused = [it for it in mine if it != "proved"]
        by_itself = [it for it in refused if RESTS not in it]
        if not ENDED.search(said) or not mine:
            self.tell(edit, *unread(said))
        elif not refused:
            self.alone.append(edit)
        elif by_itself or is_alone:
            self.tell(edit, REFUSED, [*by_itself, *refused][0])
        else:
            return False
        return True

    def try_alone(self):
        said = self.room.must_fail(self.crate, self.alone)
        told = {name: (what, why) for name, what, why in TRIED.findall(said)}
        for it in self.alone:
            self.tell(it, *told.get(it.name, (UNTRIED, last_line(said))))


def last_line(said):
    return (said.strip().split("\n") or [""])[-1]


def unread(said):
    """What came of an edit of which no function was tried, and why."""
    errors = [it for it in said.split("\n") if re.search(r"\berror\b", it)]
    return (BAD, errors[0]) if errors else (UNTRIED, last_line(said))
