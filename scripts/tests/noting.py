"""The library of noting.c in front of the program: what it is told, and what it has noted."""
import collections
import os
import struct

from front import Library

BELOW = 256
NUMBERS = 6
ROOM = 1 << 20
SIZE = BELOW + 8 * NUMBERS + ROOM
HEAD = struct.Struct("<7q")

REPLY, OPEN, MAKE_FOLDER, WRITE, CUT, SYNC_DATA, SYNC, READ, REMOVE = range(9)
KINDS = ("reply", "open", "mkdir", "write", "cut", "fdatasync", "fsync", "read", "unlink")
# What becomes of a call.
NONE, FAIL, HALF, DONE, SHORT, GOES_ON, KILL = range(7)
# Each call, and each other one from the second on, in the place of a call's number.
EACH, EACH_OTHER = 2**32, 2**32 + 1
# The syncs that are left out.
NO_FILES, NO_NAMES, NO_PARENT = 1, 2, 4


class Call(collections.namedtuple("Call", "kind path at asked did has_failed data")):
    """A call that was noted, or a reply, whose data is what was printed. What a call did is -1
    where it wasn't made."""

    def __str__(self):
        if self.kind == REPLY:
            return f"the reply {self.data.decode()!r}"
        kind, name = KINDS[self.kind], os.path.basename(self.path)
        return f"{kind} of {name} at {self.at}, {len(self.data)} bytes"

    def changes(self):
        """Whether it changes what a power cut may leave of a folder that is there."""
        makes = self.kind == OPEN and self.at != 0
        return makes or self.kind in (WRITE, CUT, SYNC_DATA, SYNC)


class Noting(Library):
    """What the library is told, and what it tells, of one process at a time."""

    def __init__(self, library, path):
        super().__init__(library, path, SIZE)

    def tell(self, below, left_out=0, chosen=0, way=NONE, error=0):
        """Begins to note anew what is done below a path. The way says what becomes of the chosen
        calls, which are counted from 1, with this number of an error. Some syncs are left out."""
        numbers = struct.pack(f"<{NUMBERS}Q", chosen, way, error, left_out, 0, 0)
        self.page[: BELOW + len(numbers)] = os.fsencode(below).ljust(BELOW, b"\0") + numbers

    def notes(self):
        """The calls and the replies since, in their order."""
        at, found = SIZE - ROOM, []
        noted = struct.unpack_from("<Q", self.page, at - 8)[0]
        if noted > ROOM:
            raise ValueError(f"there's no room for {noted} bytes of notes")
        while at < SIZE - ROOM + noted:
            kind, place, asked, did, has_failed, path, size = HEAD.unpack_from(self.page, at)
            at += HEAD.size
            name, data = self.page[at : at + path], self.page[at + path : at + path + size]
            at += path + size
            found.append(Call(kind, os.fsdecode(name), place, asked, did, bool(has_failed), data))
        return found
