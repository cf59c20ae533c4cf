"""What scripts/lint asks of refused memory and of sizes.

No clause can say that memory is refused only where a growth is, and none says of a call how large
the lists are that it goes right for. So each place is listed that could tell large from small: one
that makes an OutOfMemory or an AllocError itself, and one that compares something with a number
above 1 or with a constant. scripts/lib/growth-places has them, each with its reason.
"""
import os
import re

from sources import blanked, closing, functions, line_at, parts, read

PLACES = "scripts/lib/growth-places"
NUMBER = r"(?:\w+::)*(?:[A-Z][A-Z0-9_]{2,}\b(?!::)|\d[\d_]*(?:u8|u16|u32|u64|usize)?\b(?!\.))"
SIGN = r"\s(?:<=|>=|==|!=|<|>)\s"
CUTS = r"\.(?:min|max|clamp|take|skip|saturating_sub|checked_sub)\(\s*"
COMPARES = re.compile(rf"(?:{SIGN}\s*|{CUTS})({NUMBER})|(?<![\w.])({NUMBER})(?={SIGN})")
MAKES = re.compile(r"\bOutOfMemory\b|\bAllocError\b(?!\s*[>,:}])")
# What only names the two: a pattern, an import, a conversion's head, a type.
NAMES = re.compile(
    r"\bOutOfMemory(?:\([^()]*\))?[) ,_]*(?:=>|\|)|\b(?:use|impl|enum|fn)\b[^;{]*|"
    r"(?:==|!=)\s*[\w:]*\bOutOfMemory\b|AllocError::from\b|matches!\([^;]*\)"
)
SMALL = re.compile(r"[01](?:u8|u16|u32|u64|usize)?")
ROW = re.compile(r"(\S+) (\S+)(?: (\d+))?: (\S.*)")


def is_of_use(crate):
    """Whether the crate is one that a program or a library stands on, and no test or benchmark."""
    name = os.path.basename(crate)
    return not name.startswith(("bench_", "example_")) and not name.endswith("_tests")


def without_clauses(path):
    """The code of a file with blanks for clauses, tests and ghosts."""
    code = blanked(read(path))
    blank = lambda text: re.sub(r"[^\n]", " ", text)  # noqa: E731
    for head in (r"\b(?:requires|ensures)\b[^{};]*", r"\bghost\b[^{};]*", r"#\[cfg\(test\)\]\s*mod \w+ "):
        place = 0
        while (found := re.compile(head).search(code, place)) is not None:
            end = found.end()
            if code[end : end + 1] == "{":
                end = closing(code, end)
            code = code[: found.start()] + blank(code[found.start() : end]) + code[end:]
            place = end
    return code


def places_in(path):
    """The places of a file: each with the function that it stands in."""
    code = without_clauses(path)
    spans = [(it.span, it.title) for it in functions(path)]
    named = [it.span() for it in NAMES.finditer(code)]
    found = []
    for it in MAKES.finditer(code):
        if not any(start <= it.start() < end for start, end in named):
            found.append(it.start())
    for it in COMPARES.finditer(code):
        if not SMALL.fullmatch(it[1] or it[2]):
            found.append(it.start())
    for place in sorted(found):
        owners = [title for (start, end), title in spans if start <= place < end]
        if owners:
            yield place, owners[-1]


def rows():
    for number, line in enumerate(read(PLACES).split("\n"), 1):
        if line and not line.startswith("#"):
            yield number, ROW.fullmatch(line)


def growth(crates):
    met = {}
    for crate in filter(is_of_use, crates):
        for path in parts(crate, "src", ends=(".rt",)):
            if path.endswith("/tests.rt") or "/tests/" in path:
                continue
            code = read(path)
            for place, owner in places_in(path):
                met.setdefault((path[len("crates/") :], owner), []).append(line_at(code, place))
    for number, row in rows():
        if row is None:
            yield PLACES, number, "it isn't a file, a function, a count and a reason"
            continue
        count = len(met.pop((row[1], row[2]), []))
        if count != int(row[3] or 1):
            yield PLACES, number, f"{row[1]} {row[2]} has {count} places"
    for (path, owner), lines in sorted(met.items()):
        for line in lines:
            what = f"{owner} makes an OutOfMemory or compares with a number, and isn't in {PLACES}"
            yield f"crates/{path}", line, what
