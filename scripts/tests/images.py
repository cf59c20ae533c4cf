"""What a power cut may leave of a folder, by calls that were noted and the rules of docs/DISK.md.

Of all images of a file those are made that tell most: each call since its last sync missing, whole,
in part or with other bytes, and lengths that are short or long. Or one is drawn at random."""
import itertools
import os

from noting import CUT, MAKE_FOLDER, OPEN, READ, REMOVE, REPLY, SYNC, SYNC_DATA, WRITE

# What stands where nobody wrote: a gate that is closed, and one that is open.
FILLS = (b"\0", b"\xa5")
# By how many bytes a file may be too long.
BEYOND = 24
# Of so many files that aren't synced each is as at first or as at last beside the others.
FEW = 4


def put(content, at, data):
    """A content with these bytes put over it, and past its end."""
    return content[:at].ljust(at, b"\0") + data + content[at + len(data) :]


def whole(call, content):
    """What a call makes of a content."""
    return content[: call.at] if call.kind == CUT else put(content, call.at, call.data)


def parts(call, content, fills):
    """What a call may make of a content beside that."""
    at, data = call.at, call.data
    if call.kind == CUT:
        yield content[: (at + len(content)) // 2]
        for fill in fills:
            yield content[:at].ljust(len(content), fill)
        return
    half = len(data) // 2
    yield put(content, at, data[:half])
    yield put(content, at + half, data[half:])
    for fill in fills:
        yield put(content, at, fill * len(data))


def after(calls, content, are_made):
    """A content after all of these calls, or none."""
    for call in calls if are_made else ():
        content = whole(call, content)
    return content


class Written:
    """A file: its content at its last sync and now, the calls since, the least length since, and
    whether its name is durable."""

    def __init__(self, content, is_named):
        self.content, self.is_named = content, is_named
        self.sync()

    def sync(self):
        self.synced, self.calls, self.kept = self.content, [], len(self.content)

    def take(self, call):
        """Does a write, a cut or a sync."""
        if call.kind in (SYNC_DATA, SYNC):
            if not call.has_failed:
                self.sync()
            return
        self.calls.append(call)
        if call.kind == CUT:
            self.kept = min(self.kept, call.at)
        if call.did >= 0:
            done = call if call.kind == CUT else call._replace(data=call.data[: call.did])
            self.content = whole(done, self.content)

    def images(self, fills):
        """What a power cut may leave of it: first as little as may be, and last what there is."""
        found = [] if self.is_named else [b""]
        found.append(self.synced)
        for at, call in enumerate(self.calls):
            for before, behind in itertools.product((False, True), repeat=2):
                content = after(self.calls[:at], self.synced, before)
                for it in (content, whole(call, content), *parts(call, content, fills)):
                    found.append(after(self.calls[at + 1 :], it, behind))
        if self.calls:
            for content in (self.synced, self.content):
                short = content[: self.kept]
                found += [short, content[: (self.kept + len(content) + 1) // 2]]
                found += [it + fill * BEYOND for it in (short, content) for fill in fills]
        return list(dict.fromkeys([*found, self.content]))


class Folder:
    """What calls have made of a folder: its path, the files that were there at first, if it was
    there, and what stands where nobody wrote."""

    def __init__(self, path, files, is_named=False, fills=FILLS):
        self.path, self.fills = path, fills
        # Whether it is there, and whether its own name is durable.
        self.is_there, self.is_named = files is not None, is_named
        self.files = {name: Written(it, True) for name, it in (files or {}).items()}

    def name_of(self, call):
        """The name of the file that a call is of."""
        folder, name = os.path.split(call.path)
        if folder != self.path:
            raise ValueError(f"{call}: it is of no file of the folder")
        return name

    def take(self, call):
        """Does a call that was noted."""
        if call.kind == MAKE_FOLDER:
            self.is_there = self.is_there or call.did >= 0
        elif call.kind == OPEN:
            if call.at and call.did >= 0:
                self.files.setdefault(self.name_of(call), Written(b"", False))
        elif call.kind == SYNC and call.path == self.path:
            for file in self.files.values():
                file.is_named = file.is_named or not call.has_failed
        elif call.kind == SYNC and call.path == os.path.dirname(self.path):
            self.is_named = self.is_named or not call.has_failed
        elif call.kind in (WRITE, CUT, SYNC_DATA, SYNC):
            self.files[self.name_of(call)].take(call)
        elif call.kind == REMOVE:
            raise ValueError(f"{call}: no file is removed")
        elif call.kind not in (REPLY, READ):
            raise ValueError(f"{call}: it isn't known")

    def loose_ends(self):
        """What of all this isn't durable, in words."""
        found = [] if self.is_named else ["the name of the folder"]
        for name, file in self.files.items():
            found += [str(it) for it in file.calls[:1]]
            found += [] if file.is_named else [f"the name of {name}"]
        return found

    def images(self):
        """What a power cut may leave: the files' bytes by their names; None where the folder isn't
        there. A file without a byte counts as none."""
        if not (self.is_there and self.is_named):
            yield None
        if not self.is_there:
            return
        each = {name: it.images(self.fills) for name, it in self.files.items()}
        first, last = ({name: its[at] for name, its in each.items()} for at in (0, -1))
        changed = [name for name, its in each.items() if len(its) > 1]
        yield last
        for name in changed:
            for content in each[name]:
                yield {**first, name: content}
                yield {**last, name: content}
        if len(changed) <= FEW:
            for some in itertools.product((first, last), repeat=len(changed)):
                yield {**last, **{name: its[name] for name, its in zip(changed, some)}}


class RandomImage:
    """Draws what a power cut may leave of a folder, by a generator of numbers."""

    def __init__(self, draw):
        self.draw = draw

    def of(self, folder):
        """The files' bytes by their numbers, and whether one has other bytes than were written."""
        files, is_torn = {}, False
        for name, file in folder.files.items():
            data = self.of_file(file)
            is_torn = is_torn or data != file.content
            files[int(name)] = data
        return files, is_torn

    def of_file(self, file):
        if not file.is_named and self.draw.randrange(3) == 0:
            return b""
        if not file.calls:
            return file.content
        length = self.length_of(len(file.content), file.kept)
        # Up to here all that was written is left, and from here on some of it.
        torn = self.draw.choice((len(file.content), 0, self.draw.randrange(len(file.content) + 1)))
        loose = loose_of(file, length)
        data = bytearray(file.content[:length].ljust(length, b"\0"))
        for at in range(length):
            is_there = at < min(torn, len(file.content))
            if loose[at] and not is_there:
                data[at] = self.byte_of(data[at])
        return bytes(data)

    def length_of(self, length, kept):
        """That of the content, the kept length, or any between and past them."""
        way = self.draw.randrange(4)
        if way < 2:
            return (length, kept)[way]
        return kept + self.draw.randrange(max(length - kept, 0) + 40)

    def byte_of(self, written):
        """Often a gate's value, or one that differs from it in a bit."""
        bit = 1 << self.draw.randrange(8)
        any_byte = self.draw.randrange(256)
        return self.draw.choice((written, written, 0, 0xA5, 0xA5, bit, 0xA5 ^ bit, any_byte))


def loose_of(file, length):
    """Which bytes of a file a power cut may change."""
    loose = bytearray(length)
    for call in file.calls:
        if call.kind == WRITE:
            end = min(call.at + len(call.data), length)
            loose[call.at : end] = b"\1" * max(end - call.at, 0)
    loose[file.kept :] = b"\1" * max(length - file.kept, 0)
    return loose
