"""What scripts/lint, scripts/pages and scripts/pictures share: reading the sources as text.

Definitions of specs/ and types, constants and traits of src/ are items: where each stands, its
text, and the items that it names. Functions have their clauses.
"""
import glob
import os
import re

# A text, a character, a comment of a line, or one of several: what no brace in it belongs to.
SKIPPED = re.compile(
    r'b?"(?:\\.|[^"\\])*"|b?\'(?:\\.[^\']*|[^\'\\])\'|//[^\n]*|/\*.*?\*/', re.DOTALL
)
CLAUSE = re.compile(r"\b(?:requires|ensures)\b[^{};]*")
# The words of a definition: names, with what mixfix signs they may have, and paths by dots.
WORD = re.compile(r"[A-Za-z_][\w'×]*(?:\.[A-Za-z_]\w*)*")
# Behind a name it says that the name is a field or a parameter.
FIELD = re.compile(r"\s*[:=](?![=:])")
USE = re.compile(
    r"^[ \t]*(?:pub )?(?:ghost )?use (Rattle\.[\w.]+?)(?:\.\{([^}]*)\}| as (\w+))?;?$", re.M
)
HEAD = re.compile(r"(?:abbrev |unfoldable |pub |instance )*(?:(record|data) (?:pub )?)?([^\s:({]+)")
ITEM = re.compile(r"^(?:pub(?:\([a-z]+\))? )?(struct|enum|trait|const|type) (\w+)", re.M)


def read(path):
    with open(path, encoding="utf-8", errors="replace") as file:
        return file.read()


def below(folder, *ends):
    """The files below a folder with one of these ends, in order."""
    found = []
    for at, folders, files in os.walk(folder):
        folders[:] = sorted(it for it in folders if it != "out")
        found += [f"{at}/{it}" for it in sorted(files) if it.endswith(ends)]
    return found


def parts(crate, *names, ends=(".rt", ".antt")):
    return [path for name in names for path in below(f"{crate}/{name}", *ends)]


def line_at(text, place):
    return text.count("\n", 0, place) + 1


def blanked(text):
    """The text with blanks for all that is no code, of the same length and lines."""
    return SKIPPED.sub(lambda found: re.sub(r"[^\n]", " ", found[0]), text)


def closing(text, place):
    """The place behind the brace that closes the one at a place."""
    depth = 0
    for found in re.finditer(r"[{}]", text[place:]):
        depth += 1 if found[0] == "{" else -1
        if depth == 0:
            return place + found.end()
    return len(text)


def layers():
    """The layers of crates.txt, each a title and its crates with what they stand on, in order."""
    found, is_title = [], False
    for line in read("crates.txt").split("\n"):
        if line.startswith("#"):
            if is_title:
                found[-1][0] += " " + line[1:].strip()
            else:
                found.append([line[1:].strip(), []])
            is_title = True
        else:
            is_title = False
            name, _, deps = line.partition(":")
            if name.strip():
                found[-1][1].append((name.split()[0], deps.split()))
    return [(title, crates) for title, crates in found]


def stands_on(crate):
    """The crates of this repository below one, and itself, each behind those that it names."""
    listed = dict(it for _, crates in layers() for it in crates)
    found = []

    def visit(name):
        if name in listed and name not in found:
            for it in listed[name]:
                visit(it)
            found.append(name)

    visit(crate)
    return found


# ---- items


class Item:
    """A definition of specs/, or a type, a constant or a trait of src/."""

    def __init__(self, crate, path, name, kind, start, lines, scope):
        self.crate, self.path, self.name, self.kind = crate, path, name, kind
        self.start, self.lines, self.scope = start, lines, scope
        # What is read of it to find the items that it names.
        self.text = "\n".join(lines)

    def __repr__(self):
        return f"{self.path}:{self.start}: {self.name}"


def imports(text):
    """The names that `use Rattle..` lines bring in: each with its path. A module has no name."""
    found = {}
    for use in USE.finditer(re.sub(r"\{[^{}]*\}", lambda it: it[0].replace("\n", " "), text)):
        path, names, alias = use[1].split(".")[1:], use[2], use[3]
        if path[0] == "std":
            continue
        if names is None:
            found[alias or path[-1]] = (path, None)
            continue
        for it in filter(None, (name.strip() for name in names.split(","))):
            name, _, other = it.partition(" as ")
            found[other or name] = (path, name)
    return found


class Sources:
    def __init__(self):
        self.items = {}  # by crate, module and name
        self.parents = {}  # constructors: by crate, module and name
        self.rust = {}  # items of src/ by crate and name
        self.passed_on = {}  # modules that specs/Lib.antt passes on: by crate and name, the path
        self.lost = set()  # names of this repository that were met and not found
        for folder in sorted(glob.glob("crates/*")):
            crate = os.path.basename(folder)
            for path in below(f"{folder}/specs", ".antt"):
                self.add_definitions(crate, path)
            for path in below(f"{folder}/src", ".rt"):
                self.add_rust(crate, path)

    def add_definitions(self, crate, path):
        text = read(path)
        if path.endswith("/specs/Lib.antt"):
            for use in re.finditer(r"^pub use Rattle\.([\w.]+)(?: as (\w+))?$", text, re.M):
                parts = use[1].split(".")
                self.passed_on[crate, use[2] or parts[-1]] = parts
        module = path.split("/specs/")[1][: -len(".antt")].replace("/", ".")
        scope = imports(text)
        lines = text.split("\n")
        # What stands in a module without a name is read as if it stood outside, with its head.
        heads, head = [""] * len(lines), ""
        for at, line in enumerate(lines):
            if line.startswith("module "):
                head = line
            elif head and line.startswith("  "):
                lines[at], heads[at] = line[2:], head
            elif line:
                head = ""
        begin, name, kind = None, None, None

        def end(at):
            if name is None:
                return
            last = at
            while last > begin and (
                not lines[last - 1].strip() or lines[last - 1].startswith("--")
            ):
                last -= 1
            first = begin
            while (
                first > 0 and lines[first - 1].startswith("--") and "----" not in lines[first - 1]
            ):
                first -= 1
            item = Item(crate, path, name, kind, first + 1, lines[first:last], (module, scope))
            code = [heads[begin], *lines[begin:last]]
            item.text = "\n".join(re.sub(r"(?<!\S)-- .*", "", it) for it in code)
            self.items[crate, module, name] = item
            if kind == "data":
                for it in re.findall(r"^\s+(\w+) :", item.text, re.M):
                    self.parents[crate, module, it] = name

        for at, line in enumerate(lines):
            if not line or line[0] in " -)}" or re.match(r"(pub )?(use|mod|module) ", line):
                if re.match(r"(pub )?(use|mod|module) ", line):
                    end(at)
                    name = None
                continue
            head = HEAD.match(line)
            if head is None or (head[2] == name and not head[1]):
                continue
            if not re.match(r"(abbrev|unfoldable|pub|record|data|instance)\b", line) and name:
                # An equation that is written with signs, such as one of an operator.
                continue
            end(at)
            begin, name, kind = at, head[2], head[1] or "definition"
        end(len(lines))

    def add_rust(self, crate, path):
        text = read(path)
        code = blanked(text)
        scope = imports(text)
        for found in ITEM.finditer(code):
            kind, name = found[1], found[2]
            brace = re.compile(r"[{;]").search(code, found.end())
            is_block = brace is not None and code[brace.start()] == "{" and kind != "const"
            end = closing(code, brace.start()) if is_block else code.find(";", found.end()) + 1
            first, last = line_at(code, found.start()), line_at(code, end - 1)
            lines = text.split("\n")
            while first > 1 and re.match(r"\s*(///|#\[)", lines[first - 2]):
                first -= 1
            item = Item(crate, path, name, kind, first, lines[first - 1 : last], (None, scope))
            item.text = code[found.start() : end] if kind != "trait" else text[found.start() : end]
            model = re.search(rf"^impl(?:<[^{{]*>)? Model for {name}\b", code, re.M)
            if model:
                block = text[model.start() : closing(code, code.find("{", model.start()))]
                item.scope = (None, {**scope, **imports(block)})
                value = re.search(r"ghost Value = \{(.*?)\};", block, re.S)
                item.text = value[1] if value else ""
                item.is_model = True
            self.rust.setdefault((crate, name), item)

    def uses(self, path):
        """The crates that a file of src/ brings names of: each name with its crate."""
        own = path.split("/")[1]
        found = {}
        code = blanked(read(path))
        for use in re.finditer(r"^[ \t]*(?:pub )?use ((?:crate|mvo_\w+)::[^;]*);", code, re.M):
            crate = use[1].split("::")[0]
            for name in re.findall(r"\b(\w+)\b(?=\s*(?:[,};]|as|$))", use[1]):
                found[name] = own if crate == "crate" else crate
        return found

    def resolve(self, path, name):
        """The item at a path of the proof language: a definition, or one of src/."""
        crate, rest = path[0], path[1:]
        if not rest or rest[0] != "specs":
            return None
        rest = rest[1:] + ([name] if name else [])
        if rest and (crate, rest[0]) in self.passed_on:
            path = [*self.passed_on[crate, rest[0]], *rest[1:]]
            return self.resolve(path, None)
        if rest and rest[0] in ("declared", "contracts"):
            if rest[0] == "contracts":
                return None
            for part in rest[1:]:
                item = self.rust.get((crate, part))
                if item is not None:
                    return item
            return None
        for cut in range(len(rest) - 1, 0, -1):
            module, names = ".".join(rest[:cut]), rest[cut:]
            item = self.items.get((crate, module, names[0]))
            if item is not None:
                return item
            parent = self.parents.get((crate, module, names[0]))
            if parent is not None:
                return self.items[crate, module, parent]
        return None

    def named(self, text, scope, crate=None, uses=None):
        """The items that a text names, in the order of their first mention."""
        module, brought = scope
        found = []
        for match in WORD.finditer(text):
            name, _, member = match[0].partition(".")
            if name[0].islower() and FIELD.match(text, match.end()):
                continue
            item = None
            if module is not None:
                item = self.items.get((crate, module, name))
                if item is None and (crate, module, name) in self.parents:
                    item = self.items[crate, module, self.parents[crate, module, name]]
            if item is None and name in brought:
                path, original = brought[name]
                member = member.split(".")[0] if original is None and member else None
                item = self.resolve(path, original or member)
                if item is None and path[0].startswith("mvo_") and "contracts" not in path:
                    self.lost.add(".".join([*path, original or member or ""]))
            if item is None and uses is not None:
                item = self.rust.get((uses.get(name, crate), name))
                # `D.Disk` is what the trait Disk says of a type D.
                if item is None and member:
                    item = self.rust.get((uses.get(member, crate), member))
            if item is not None and item not in found:
                found.append(item)
        return found

    def below_item(self, item):
        uses = self.uses(item.path) if item.path.endswith(".rt") else None
        return [it for it in self.named(item.text, item.scope, item.crate, uses) if it is not item]


# ---- functions


class Function:
    """A function of src/ with its clauses: each a label, which may be empty, and its text."""

    def __init__(self, path, owner, trait, name, is_public, docs, clauses, span, scope, head):
        self.path, self.owner, self.trait, self.name = path, owner, trait, name
        self.is_public, self.docs, self.clauses, self.span = is_public, docs, clauses, span
        self.scope = scope
        self.head = head
        self.may_wait = re.search(r"\bWait\b", head) is not None

    @property
    def title(self):
        return f"{self.owner}::{self.name}" if self.owner else self.name


OPENED = re.compile(
    r"^(?:pub )?(?:impl(?:<[^{;]*?>)?\s+(?:([\w:]+)(?:<[^{]*?>)?\s+for\s+)?(\w+)|trait (\w+))", re.M
)


def clauses_of(code, text, place):
    """The clauses from a place on, and where the body begins, or the `;` in its place."""
    found = []
    while True:
        stop = re.compile(r"[{;]|\b(?:requires|ensures)\b").search(code, place)
        if stop is None or stop[0] in "{;":
            return found, stop.start() if stop else len(code)
        head = CLAUSE.match(code, stop.start())
        end = closing(code, head.end())
        words = head[0].split()
        found.append((words[0], " ".join(words[1:]), text[head.end() + 1 : end - 1].strip()))
        place = end


def doc_above(lines, number):
    """The comment above a line that is counted from 1."""
    at, found = number - 2, []
    while at >= 0 and re.match(r"\s*(///|#\[|\)\])", lines[at]):
        if lines[at].strip().startswith("///"):
            found.append(lines[at].strip()[3:].strip())
        at -= 1
    return " ".join(it for it in reversed(found))


def functions(path):
    """The functions of a file, those of blocks and traits with their type."""
    text = read(path)
    code = blanked(text)
    lines = text.split("\n")
    whole = imports(text)
    blocks = []
    for found in OPENED.finditer(code):
        brace = code.find("{", found.end())
        if brace < 0:
            continue
        end = closing(code, brace)
        inside = {**whole, **imports(text[brace:end])}
        trait = (found[1] or "").split("::")[-1] or None
        blocks.append((brace, end, found[2] or found[3], found[3] or trait, inside))
    made = []
    for found in re.finditer(
        r"^[ \t]*(pub(?:\([a-z]+\))? )?(?:const )?(?:unsafe )?fn (\w+)", code, re.M
    ):
        block = next((it for it in blocks if it[0] < found.start() < it[1]), None)
        clauses, body = clauses_of(code, text, found.end())
        end = closing(code, body) if code[body : body + 1] == "{" else body + 1
        owner, trait, scope = (block[2], block[3], block[4]) if block else (None, None, whole)
        is_public = found[1] == "pub " or trait is not None
        number = line_at(code, found.start(2))
        span = (found.start(), end)
        docs = doc_above(lines, number)
        head = code[
            found.start() : re.compile(r"[{;]|\b(?:requires|ensures)\b")
            .search(code, found.end())
            .start()
        ]
        made.append(
            Function(path, owner, trait, found[2], is_public, docs, clauses, span, scope, head)
        )
    return made


def exported(crate):
    """The names that a crate's lib.rt gives, or None where it is a program."""
    path = f"crates/{crate}/src/lib.rt"
    if not os.path.exists(path):
        return None
    code = blanked(read(path))
    found = set()
    for use in re.finditer(r"^pub use ([^;]*);", code, re.M):
        found.update(re.findall(r"\b(\w+)\b(?=\s*(?:[,}]|$))", use[1]))
    return found


def edits_of(crate):
    """The edits of a crate."""
    return below(f"edits/{crate}", ".edit")


def changes(path):
    """What an edit changes: each a file of its crate, and the text that is taken out."""
    found, file = [], None
    for line in read(path).split("\n"):
        word, _, rest = line.partition(": ")
        if word == "file":
            file = rest.strip()
        elif word == "old":
            found.append((file, rest))
    return found
