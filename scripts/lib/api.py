"""The page docs/API.md: what a program of its own calls, as the sources have it."""
import os
import re

import sources
from sources import below, blanked, closing, read

# The crates that the page is about, those first that a program calls first.
CRATES = ("mvo_engine", "mvo_types", "mvo_store", "mvo_world")
HEAD = """\
# Calls

Made by [scripts/pages](../scripts/pages) out of the sources; the gate fails where it is stale. \
Each public call of the crates that a program names: its signature, with what the caller has to \
show (`requires`), and what the source says of it. What it is refused with stands last, each \
refusal with its number. The first of a list whose cause stands decides, where no other order is \
said; [REFUSALS.md](REFUSALS.md) has the causes, what is left, and the order of each step. A call \
that is refused *as another* is refused with what stands there. [CLAUSES.md](CLAUSES.md) has what \
is proved of each, and the calls of the other crates; [EMBED.md](EMBED.md) has a whole program.

A call with the bound `Wait` takes a lock, or waits for another thread, so it need not return. All \
others return. `alloc` is the allocator of the `HostRuntime` (`rt.alloc()`), and an `AllocError` is \
want of memory; it becomes OutOfMemory (90) by `?`."""


def given(crate):
    """The names that a crate's lib.rt gives, in its order, each with the crate that has it."""
    found = []
    for use in re.finditer(r"^pub use ([^;]*);", blanked(read(f"crates/{crate}/src/lib.rt")), re.M):
        home = use[1].split("::")[0]
        home = home if os.path.isdir(f"crates/{home}") else crate
        found += [(it, home) for it in re.findall(r"\b(\w+)\b(?=\s*(?:[,}]|$))", use[1])]
    return found


def codes():
    """The number of each refusal, as `Refusal::code` has them."""
    text = read("crates/mvo_types/src/refusal.rt")
    return dict(re.findall(r"Refusal::(\w+)(?:\(_\))? => (\d+)", text))


def numbered(text, numbers):
    """A text with the number behind the name of each refusal."""
    return re.sub(
        r"(?<![`:\w])([A-Z][a-z]+(?:[A-Z][a-z]+)*)(?![`:\w])",
        lambda it: f"{it[1]} ({numbers[it[1]]})" if it[1] in numbers else it[1],
        text,
    )


def paragraphs(lines):
    """What a comment says: its lines without the signs, by paragraph."""
    text = "\n".join(it.strip()[len("///") :].strip() for it in lines)
    return [" ".join(it.split()) for it in re.split(r"\n\n+", text) if it.strip()]


def comment_above(lines, number):
    """The paragraphs of the comment above a line that is counted from 1."""
    at, found = number - 2, []
    while at >= 0 and re.match(r"\s*(///|#\[|\)\])", lines[at]):
        found += [lines[at]] if lines[at].strip().startswith("///") else []
        at -= 1
    return paragraphs(reversed(found))


def told(found):
    """The paragraphs of a comment, those sentences that say what is refused behind the others."""
    said, refused = [], []
    for paragraph in found:
        sentences = re.split(r"(?<=[.!?])\s+(?=[A-Z`(])", paragraph)
        at = [place for place, it in enumerate(sentences) if is_refusal(it)]
        first = at[0] if at else len(sentences)
        said += [" ".join(sentences[:first])] if first else []
        refused += [" ".join(sentences[first:])] if at else []
    return said, refused


def is_refusal(sentence):
    return re.match(r"Refused\b|Whoever is refused|It is refused", sentence) is not None


def dedented(text):
    """A text without what all lines but the first have in common before them."""
    first, *rest = text.rstrip().split("\n")
    room = min((len(it) - len(it.lstrip()) for it in rest if it.strip()), default=0)
    depth = len(first) - len(first.lstrip())
    return [first.strip(), *(it[min(room, depth) if depth else 0 :].rstrip() for it in rest)]


def signature(function):
    """A function's signature as its file has it, with what its caller has to show."""
    text = read(function.path)
    start = function.span[0]
    while text[start] == "\n":
        start += 1
    head = text[start : function.span[0] + len(function.head)]
    wanted = [it for it in function.clauses if it[0] == "requires"]
    shown = [" ".join(["requires", label, "{", text, "}"]) for _, label, text in wanted]
    return [*dedented(head), *(f"    {' '.join(it.split())}" for it in shown)]


def is_call(function, name, home):
    """Whether a function is one that a program calls: of a type or a trait by itself."""
    if function.name in ("fmt", "drop") or not function.is_public:
        return False
    if function.owner is None:
        return function.name == name
    return function.owner == name and function.trait in (None, name)


def shape(item):
    """A type or a trait as its file has it, but for what is private or a contract's."""
    text = re.sub(r"^[ \t]*(?:///|//|#\[).*\n", "", "\n".join(item.lines) + "\n", flags=re.M)
    text = re.sub(r"^[ \t]*\)\]\n", "", text, flags=re.M).strip()
    if item.kind == "enum":
        return text.split("\n")
    head = re.match(r"[^{;]*", text)[0].strip()
    if item.kind == "struct":
        held = re.findall(r"^    pub (?!\()(?!ghost)\w+: .*,$", text, re.M)
        if "(" in head:
            return [text] if re.search(r"\(pub ", text) else []
        return [f"{head} {{", *held, "}"] if held else []
    return [head] if item.kind == "trait" else [text]


def variants(item):
    """The variants of an enum that have a comment, each with it."""
    found, comment = [], []
    for line in item.lines:
        word = re.match(r"    (\w+)", line)
        if line.strip().startswith("///"):
            comment.append(line)
        elif word and comment and line.startswith("    "):
            found.append((word[1], " ".join(paragraphs(comment))))
            comment = []
        else:
            comment = []
    return found


def calls(crate, name):
    """The calls of a type or a trait, or the function of that name, in the order of the files."""
    root = f"crates/{crate}/src"
    found = [it for path in below(root, ".rt") for it in sources.functions(path)]
    return [it for it in found if is_call(it, name, crate)]


def call_lines(function, numbers, depth):
    lines = read(function.path).split("\n")
    at = sources.line_at(read(function.path), function.span[0])
    while "fn " not in lines[at - 1]:
        at += 1
    said, refused = told(comment_above(lines, at))
    out = ["", f"{'#' * depth} {function.title}", ""]
    out += [f"    {it}".rstrip() for it in signature(function)]
    for paragraph in [*said, *refused]:
        out += ["", numbered(paragraph, numbers) if "efused" in paragraph else paragraph]
    return out


def variant_texts(item):
    """Each variant of an enum as its file has it, by its name."""
    text = "\n".join(it for it in item.lines if not it.strip().startswith(("//", "#[")))
    code = blanked(text)
    start = code.find("{")
    inside = text[start + 1 : closing(code, start) - 1]
    found = re.findall(r"^    (\w+)((?:\([^)]*\)| \{[^}]*\})?)", inside, re.M)
    return {word: f"{word}{' '.join(rest.split())}" for word, rest in found}


def variant_rows(item, numbers):
    """The rows of an enum's variants that have a comment, those of refusals with their number."""
    texts, found = variant_texts(item), []
    for word, said in variants(item):
        number = f"{numbers[word]}: " if item.name == "Refusal" else ""
        found.append(f"| `{texts[word]}` | {number}{said} |")
    return ["| | |", "|---|---|", *found] if found else []


def type_lines(known, crate, name, numbers):
    """A name that a crate gives: a type with its calls, or a function."""
    item, found = known.rust.get((crate, name)), calls(crate, name)
    if item is None:
        return [line for it in found for line in call_lines(it, numbers, 3)]
    out = ["", f"### {name}"]
    for paragraph in paragraphs(it for it in item.lines if it.startswith("///")):
        out += ["", paragraph]
    rows = variant_rows(item, numbers) if item.kind == "enum" else []
    held = rows or [f"    {it}".rstrip() for it in shape(item)]
    out += ["", *held] if held else []
    for it in found:
        out += call_lines(it, numbers, 4)
    return out


def constant_row(item):
    said = " ".join(paragraphs(it for it in item.lines if it.startswith("///")))
    value = re.search(r": (\w+) = ([^;]*);", item.lines[-1])
    return f"| `{item.name}` | `{value[2]}` (`{value[1]}`) | {said} |"


def page(known):
    numbers, out = codes(), [HEAD]
    for crate in CRATES:
        says = re.findall(r"^//! ?(.*)$", read(f"crates/{crate}/src/lib.rt"), re.M)
        out += ["", f"## {crate}", "", " ".join(says)]
        rows = []
        for name, home in given(crate):
            item = known.rust.get((home, name))
            if item is not None and item.kind == "const":
                rows.append(constant_row(item))
            else:
                out += type_lines(known, home, name, numbers)
        if rows:
            out += ["", f"### Constants of {crate}", "", "| constant | value | |", "|---|---|---|"]
            out += rows
    return "\n".join(out) + "\n"
