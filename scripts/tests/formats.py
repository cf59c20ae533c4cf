"""What a store's files come to, worked out by the rules of docs/FORMATS.md alone: nothing of the
program is used. scripts/tests/byte-test, scripts/tests/image-test and
scripts/tests/random-folder-test compare what opening answers with it; run on a folder it prints
what `mvo stats` must print, with which scripts/tests/folder-test compares.
"""
import os
import struct
import sys

OPEN = 0xA5
# Of each version the greatest table, and the most bytes of data in a row.
LIMITS = {1: (15, 1_024), 2: (63, 4_096)}


class Refused(Exception):
    pass


def need(holds, file):
    if not holds:
        raise Refused(f"refused 54 {file}")


class Reader:
    """The bytes of a file from a place on, read as the rules say."""

    def __init__(self, file, data, at=0):
        self.file, self.data, self.at = file, data, at

    def take(self, count):
        need(self.at + count <= len(self.data), self.file)
        self.at += count
        return self.data[self.at - count : self.at]

    def number(self, form):
        return struct.unpack("<" + form, self.take(struct.calcsize(form)))[0]

    def head(self, magic, may):
        """The version, which is one of these."""
        need(self.take(4) == magic, self.file)
        version = self.number("I")
        if version not in may:
            raise Refused("refused 55")
        return version


def pairs_of(body, mark):
    """The pairs that a manifest with this checkpoint mark names."""
    pairs, last = [], 0
    count = body.number("H")
    need(count <= 64, body.file)
    for _ in range(count):
        pair = [body.number(form) for form in "HHQQII"]
        _, _, lo, hi, records, _ = pair
        need(lo == last and lo < hi <= 2**62 and records <= 4_194_304, body.file)
        last = hi
        pairs.append(pair)
    need(mark == last, body.file)
    return pairs


def slot_of(file, data):
    """Generation, checkpoint mark, pairs, segments and version of a slot; None where it is closed."""
    if not data or data[0] != OPEN:
        return None
    length = Reader(file, data, 1).number("I")
    # The magic and the version stand at their places, whatever the length says.
    version = Reader(file, data, 5).head(b"MVOM", LIMITS)
    need(5 + length <= len(data), file)
    body = Reader(file, data[: 5 + length], 13)
    generation, mark = body.number("Q"), body.number("Q")
    need(generation % 2 == file, file)
    pairs = pairs_of(body, mark)
    count = body.number("H")
    need(1 <= count <= 64, file)
    segments = [body.number("H") for _ in range(count)]
    named = [it for pair in pairs for it in pair[:2]] + segments
    differ = len(set(named)) == len(named) and all(2 <= it <= 1023 for it in named)
    need(differ and body.at == len(body.data), file)
    return generation, mark, pairs, segments, version


def up_to(version):
    return range(1, version + 1)


def records_of(file, data, lo, hi, count, upto):
    """The version of a data file, and of each record its table and key, and its sort and data."""
    reader, found, last = Reader(file, data), [], None
    version = reader.head(b"MVOD", up_to(upto))
    most_table, most_data = LIMITS[version]
    for _ in range(count):
        begin, table, key = reader.number("Q"), reader.number("B"), reader.number("Q")
        sort = reader.number("Q")
        length = reader.number("H")
        need(lo < begin <= hi and table <= most_table and length <= most_data, file)
        row = sort, reader.take(length)
        need(last is None or last < (begin, table, key), file)
        last = begin, table, key
        found.append(((table, key), row))
    return version, found


def numbers_of(file, data, count, entries, version):
    """The numbers in a delta file, which has the version of its data file."""
    reader, found = Reader(file, data), set()
    reader.head(b"MVOE", [version])
    for _ in range(entries):
        number = reader.number("I")
        need(number < count and number not in found, file)
        found.add(number)
    return found


def pair_of(pair, files, rows, upto):
    """Puts the live records of a pair into the rows."""
    data_file, delta_file, lo, hi, count, entries = pair
    version, records = records_of(data_file, files.get(data_file, b""), lo, hi, count, upto)
    dead = numbers_of(delta_file, files.get(delta_file, b""), count, entries, version)
    for number, (place, row) in enumerate(records):
        if number not in dead:
            need(place not in rows, data_file)
            rows[place] = row


def writes_of(body, most_table, most_data):
    """The writes of a record, each a table and a key, and what it puts there, if it does."""
    found = []
    count = body.number("H")
    need(1 <= count <= 256, body.file)
    for _ in range(count):
        tag, table, key = body.number("B"), body.number("B"), body.number("Q")
        need(tag in (1, 2) and table <= most_table, body.file)
        row = None
        if tag == 1:
            sort, length = body.number("Q"), body.number("H")
            need(length <= most_data, body.file)
            row = sort, body.take(length)
        need(not found or found[-1][0] < (table, key), body.file)
        found.append(((table, key), row))
    return found


def group_of(body, mark, rows, limits):
    """Does the writes of a group, and answers its mark."""
    prev, new = body.number("Q"), body.number("Q")
    need(prev == mark and prev < new <= 2**62, body.file)
    count, last = body.number("H"), prev
    need(count <= 1024, body.file)
    for _ in range(count):
        end = body.number("Q")
        need(last < end <= new, body.file)
        last = end
        for place, row in writes_of(body, *limits):
            if row:
                rows[place] = row
            else:
                rows.pop(place, None)
    need(body.at == len(body.data), body.file)
    return new


def segment_of(file, data, mark, is_last, rows, upto):
    """Does the writes of a segment's groups, and answers its mark, how many bytes stand before its
    closed gate, and how many groups it has."""
    reader = Reader(file, data)
    limits = LIMITS[reader.head(b"MVOL", up_to(upto))]
    frames = 0
    while reader.number("B") == OPEN:
        length = reader.number("I")
        need(length <= 4_194_304, file)
        body = Reader(file, reader.take(length))
        need(reader.at + 1 <= 67_108_864, file)
        mark = group_of(body, mark, rows, limits)
        frames += 1
    need(frames or is_last, file)
    return mark, reader.at - 1, frames


def groups_of(file, data):
    """The groups of a segment that keeps the rules: prev, mark, and of each commit its end and its
    writes."""
    reader = Reader(file, data)
    limits = LIMITS[reader.head(b"MVOL", LIMITS)]
    while reader.number("B") == OPEN:
        body = Reader(file, reader.take(reader.number("I")))
        prev, mark, count = (body.number(form) for form in "QQH")
        yield prev, mark, [(body.number("Q"), writes_of(body, *limits)) for _ in range(count)]


def installed_of(files):
    """The manifest that counts: its generation, checkpoint mark, pairs, segments and version."""
    slots = [slot_of(file, files.get(file, b"")) for file in (0, 1)]
    installed = max((it for it in slots if it), default=None)
    if installed is None:
        raise Refused("refused 53")
    return installed


def opened(files):
    """The mark of a store with these files, its rows by table and key, and how many pairs, segments
    and old files it has."""
    _, mark, pairs, segments, upto = installed_of(files)
    rows = {}
    for pair in pairs:
        pair_of(pair, files, rows, upto)
    for file in segments:
        mark, _, _ = segment_of(file, files.get(file, b""), mark, file == segments[-1], rows, upto)
    named = [it for pair in pairs for it in pair[:2]] + segments
    old = sum(files[file][4] == 1 for file in named)
    return mark, rows, len(pairs), len(segments), old


def answer_of(files):
    """What `mvo check` must print for these files, or answer on standard error."""
    try:
        mark, rows, pairs, segments, old = opened(files)
        counts = f"ok mark {mark} rows {len(rows)} pairs {pairs} segments {segments}"
        return f"{counts} old {old}" if old else counts
    except Refused as refused:
        return str(refused)


def stats_of(files):
    """What `mvo stats` must print for these files, which are opened."""
    _, mark, pairs, segments, upto = installed_of(files)
    rows, lines = {}, []
    for pair in pairs:
        pair_of(pair, files, rows, upto)
    for file in segments:
        is_last = file == segments[-1]
        mark, count, groups = segment_of(file, files.get(file, b""), mark, is_last, rows, upto)
        lines.append(f"segment {file} bytes {count} groups {groups}")
    for data, delta, _, _, records, dead in pairs:
        lines.append(f"pair {data} {delta} records {records} dead {dead}")
    named = {it for pair in pairs for it in pair[:2]} | set(segments)
    unused = sum(1 for file, data in files.items() if file >= 2 and data and file not in named)
    return "\n".join([f"mark {mark} rows {len(rows)}", *lines, f"reclaimable {unused}"])


def kind_of(files, answer):
    """What an answer about these files is of."""
    kind, _, file = answer.partition("refused 54 ")
    if not file:
        return answer if kind.startswith("refused") else "opened"
    if file in ("0", "1"):
        return "refused 54 of a slot"
    _, _, pairs, segments, _ = installed_of(files)
    if int(file) in segments:
        return "refused 54 of a segment"
    is_data = int(file) in [it[0] for it in pairs]
    return f"refused 54 of a {'data' if is_data else 'delta'} file"


def files_in(folder):
    """The bytes of a store's files by their numbers."""
    return {int(name): open(os.path.join(folder, name), "rb").read() for name in os.listdir(folder)}


if __name__ == "__main__":
    # What `mvo stats DIR` must print.
    print(stats_of(files_in(sys.argv[1])))
