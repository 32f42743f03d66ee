"""What the tools of this folder read of the tree: crates.txt, the items and contracts of the `.rt` files, and the
definitions and imports of the `.antt` files.

It is no parser of either language. Of a `.rt` file it takes the items, with their contracts and ghost members, by
matching brackets. Of a `.antt` file it takes the imports and the definitions: from the line that declares a name to the
line that declares the next one. A name counts as cited wherever its word stands, so a variable of the same name counts
too: what is found may be too much, and is never too little by that."""
import os
import re

ROOT = os.path.dirname(os.path.dirname(os.path.abspath(__file__)))
CRATES = os.path.join(ROOT, "crates")
WORD = re.compile(r"«[^»]*»|[^\W\d](?:[\w'-]*[\w'])?")
# a word that is no member of what stands in front of it
NAME = re.compile(r"(?<![.\w»])(?:" + WORD.pattern + ")")
RUST_WORD = re.compile(r"[A-Za-z_]\w*")


def text_of(path):
    with open(path, encoding="utf-8") as file:
        return file.read()


def below(folder, ending):
    """The files with this ending in a folder and beneath it, in order."""
    return sorted(os.path.join(where, name) for where, _, names in os.walk(folder) for name in names if name.endswith(ending))


def dependencies():
    """What crates.txt says: each crate with those that it stands on, lowest first."""
    rows = {}
    for line in text_of(os.path.join(ROOT, "crates.txt")).splitlines():
        head, mark, names = line.split("#")[0].partition(":")
        if mark:
            rows[head.split()[0]] = names.split()
    return rows


# ---- .antt ----

USE = re.compile(r"^[ \t]*(?:ghost\s+)?(pub\s+)?(?:ghost\s+)?use\s+(Rattle(?:\.[\w«»]+)+)(?:\.\{([^}]*)\}|\s+as\s+([^\s;]+))?;?[ \t]*$",
                 re.M)
HEAD = re.compile(r"(?:(?:abbrev|unfoldable|opaque|pub|record|data)\s+)+([^\s:({]+)")


class Imports:
    """What a file imports: single names, and names of whole modules."""

    def __init__(self, text):
        self.names, self.modules, self.public = {}, {}, {}
        for public, path, names, alias in USE.findall(text):
            path = path.replace("«", "").replace("»", "")
            if alias:
                self.modules[alias] = path
            for name in filter(None, (name.strip() for name in names.split(","))):
                original, _, other = name.partition(" as ")
                self.names[(other or original).strip()] = (path, original.strip())
                if public:
                    self.public[(other or original).strip()] = (path, original.strip())

    def joined(self, other):
        both = Imports("")
        both.names = {**self.names, **other.names}
        both.modules = {**self.modules, **other.modules}
        return both

    def cited(self, text):
        """What a text cites of these: pairs of a module and a name in it."""
        words = set(NAME.findall(text))
        for name, (path, original) in self.names.items():
            if name in words or is_used(name, text, words):
                yield path, original
        for alias, path in self.modules.items():
            if alias in words:
                for name in re.findall(re.escape(alias) + r"\s*\.\s*(" + WORD.pattern + ")", text):
                    yield path, name


def is_used(operator, text, words):
    """Whether a text has all parts of an operator; a `do` has the one that chains its lines."""
    if "◌" not in operator:
        return False
    return all(part in text for part in operator.split("◌")) or operator == "◌>>=◌" and "do" in words


class SpecFile:
    """A file of definitions."""

    def __init__(self, path):
        self.path = path
        text = text_of(path)
        self.lines = text.count("\n")
        self.text = re.sub(r"--(?=[\s-]|$)[^\n]*", "", text)
        self.imports = Imports(self.text)
        self.blocks, self.owner = {}, {}
        self.said = sum(1 for line in USE.sub("", self.text).splitlines() if line.strip())
        self.read()

    def read(self):
        """Splits the file into its definitions. Those of a `module` or a `mutual` stand further in, all as far as the first
        one, and what stands in front of them there belongs to each."""
        name, shared, within = None, "", 0
        for line in USE.sub("", self.text).splitlines():
            if not line.strip():
                continue
            indent = len(line) - len(line.lstrip())
            if re.match(r"(\w+ )?(module|mutual)\b", line):
                name, shared, within = None, line, None
                continue
            if indent == 0 and line[0] != ")" and within != 0:
                shared, within = "", 0
            head = HEAD.match(line.lstrip())
            if head and within is None:
                within = indent
            head = head if indent == within else None
            if head:
                name = head.group(1)
                self.blocks[name] = shared + "\n"
                self.owner[name] = name
            if name is None:
                shared += "\n" + line
                continue
            self.blocks[name] += line + "\n"
            row = re.match(r"\s+(?:pub )?([^\s:({]+)\s*:", line)
            if row and not head:
                self.owner.setdefault(row.group(1), name)

    def cited_by(self, name):
        """What the definition of this name cites: in this file, and elsewhere."""
        block = self.blocks[name]
        words = set(NAME.findall(block))
        here = {self.owner[word] for word in words if word in self.owner}
        here |= {word for word in self.blocks if is_used(word, block, words)}
        return here - {name}, set(self.imports.cited(block))

    def said_by(self, names):
        """How many lines these definitions have."""
        return sum(1 for name in names for line in self.blocks[name].splitlines() if line.strip())


# ---- .rt ----

CLAUSE = re.compile(r"\b(requires|ensures|ghost)\b\*?\s*(\w*)\s*$")
ITEM = re.compile(r"(?:#!?\[[^\]]*\]\s*)*((?:pub(?:\([a-z]+\))?\s+)?)(?:(?:const|unsafe|final|default)\s+)*?"
                  r"(fn|struct|enum|trait|impl|mod|use|const|static|type|ghost|macro_rules!)(?![\w])")


def bare(text):
    """A text without comments, and with nothing in its strings and characters."""
    out = re.compile(r'//[^\n]*|/\*.*?\*/|b?r#+".*?"#+|b?"(?:\\.|[^"\\])*"|b?\'(?:\\.|[^\'\\\n])\'', re.S)
    return out.sub(lambda m: '""' if m.group(0)[-1] in "\"'#" and not m.group(0).startswith("//") else " ", text)


def closing(text, at):
    """Where the bracket that opens here is closed."""
    pairs = {"{": "}", "(": ")", "[": "]"}
    depth, opening, ending = 0, text[at], pairs[text[at]]
    for place in range(at, len(text)):
        depth += (text[place] == opening) - (text[place] == ending)
        if depth == 0:
            return place
    raise SystemExit(f"a bracket that opens is not closed: {text[at:at + 60]!r}")


def first_of(text, marks, at):
    """The first of these marks from here on that stands in no round or square bracket."""
    while at < len(text):
        if text[at] in marks:
            return at
        at = closing(text, at) + 1 if text[at] in "([" else at + 1
    return len(text)


class Item:
    """An item of a `.rt` file: its signature, the contracts and ghost members with it, and what it imports for these."""

    def __init__(self, kind, name, public, crate, module, imports):
        self.kind, self.name, self.public, self.crate, self.module, self.imports = kind, name, public, crate, module, imports
        self.signature, self.clauses, self.members, self.inner, self.path, self.line = "", [], {}, [], "", 0
        self.target = self.trait = None

    def place(self):
        return f"{self.crate.name}/src/{os.path.relpath(self.path, self.crate.source)}:{self.line}"


class Crate:
    def __init__(self, name):
        self.name = name
        self.source = os.path.join(CRATES, name, "src")
        self.items, self.bound, self.modules, self.impls, self.shown = {}, {}, {(): True}, [], []
        self.specs = {}
        folder = os.path.join(CRATES, name, "specs")
        for path in below(folder, ".antt"):
            dotted = os.path.relpath(path, folder)[:-5].replace(os.sep, ".")
            self.specs[dotted] = path
        for root in ("lib.rt", "main.rt"):
            if os.path.exists(os.path.join(self.source, root)):
                self.read(os.path.join(self.source, root), ())

    def read(self, path, module):
        """The items of a file, which is this module."""
        self.modules[module] = True
        self.whole = text_of(path)
        text = bare(self.whole)
        self.scan(text, module, path, Imports(text), self.items_at(module))

    def items_at(self, module):
        def add(item):
            self.items[module, item.name] = item
        return add

    def scan(self, text, module, path, imports, add, base=0, whole=None):
        """The items of a text, in order."""
        whole = text if whole is None else whole
        local = Imports("\n".join(m.group(0) for m in re.finditer(r"^[ \t]*ghost use [^;]*;", outer_part(text), re.M)))
        imports = imports.joined(local)
        at = 0
        while at < len(text):
            found = ITEM.match(text, at)
            if not found:
                skip = re.compile(r"\s*(?:#!?\[[^\]]*\])?\s*").match(text, at).end()
                at = skip if skip > at and ITEM.match(text, skip) else max(first_of(text, ";{", at) + 1, at + 1)
                if at > 0 and at <= len(text) and text[at - 1:at] == "{":
                    at = closing(text, at - 1) + 1
                at = re.compile(r"\s*").match(text, at).end()
                continue
            at = self.item(text, found, module, path, imports, add, base, whole)
            at = re.compile(r"\s*").match(text, at).end()

    def item(self, text, found, module, path, imports, add, base, whole):
        """One item; answers where it ends."""
        public, kind, start = found.group(1).strip(), found.group(2), found.end()
        tested = "cfg(test)" in found.group(0) or "#[test]" in found.group(0)
        line = whole.count("\n", 0, base + found.start(2)) + 1
        if kind == "use":
            end = text.index(";", start)
            if not tested:
                self.bind(module, text[start:end], public == "pub")
            return end + 1
        if kind == "ghost":
            return self.ghost(text, start, add, found)
        name = (RUST_WORD.search(text, start) or found).group(0)
        item = Item(kind, name, public == "pub", self, module, imports)
        item.path, item.line = path, line
        if kind in ("const", "static", "type"):
            end = first_of(text, ";", start)
            item.signature = text[start:end]
            add(item)
            return end + 1
        if kind == "fn":
            end = self.function(text, start, item)
        else:
            end = first_of(text, ";{", start)
            item.signature = text[start:end]
            if end < len(text) and text[end] == "{":
                body, inside = (end + 1, closing(text, end))
                end = inside
                if not tested:
                    self.inside(item, text[body:inside], kind, module, path, imports, base + body, whole)
            elif kind == "mod" and not tested:
                self.file_of(path, module, name)
            if kind == "mod" and item.public:
                self.shown.append(module + (name,))
        if not tested and kind != "mod":
            (self.impls.append if kind == "impl" else add)(item)
        return end + 1

    def inside(self, item, text, kind, module, path, imports, base, whole):
        """What stands in the braces of an item."""
        if kind == "mod":
            self.modules[module + (item.name,)] = True
            self.scan(text, module + (item.name,), path, imports, self.items_at(module + (item.name,)), base, whole)
        elif kind in ("struct", "enum"):
            item.signature += "{" + text + "}"
            for name, body in re.findall(r"\bghost\s+(\w+)\s*:\s*\{([^}]*)\}", text):
                item.members[name] = body
        else:
            item.kept = Keeper(item)
            self.scan(text, module, path, imports, item.kept.add, base, whole)
            local = Imports("\n".join(m.group(0) for m in re.finditer(r"^[ \t]*ghost use [^;]*;", outer_part(text), re.M)))
            item.imports = imports.joined(local)

    def ghost(self, text, start, add, found):
        """A ghost member, or an import."""
        end = first_of(text, ";{", start)
        member = re.match(r"\s*(\w+)\s*([:=])", text[start:end])
        if not member or member.group(1) == "use":
            return (text.index(";", start)) + 1
        body = ""
        while end < len(text) and text[end] == "{":
            inside = closing(text, end)
            body += " " + text[end + 1:inside]
            end = first_of(text, ";{", inside + 1)
        if hasattr(add, "__self__") and isinstance(add.__self__, Keeper):
            add.__self__.item.members[member.group(1)] = body
        return end + 1

    def function(self, text, start, item):
        """A function's signature and clauses; answers where it ends."""
        end = start
        while True:
            at = first_of(text, ";{", end)
            part = text[end:at]
            if at >= len(text) or text[at] == ";":
                item.signature += part
                return at
            clause = CLAUSE.search(part)
            if not clause:
                item.signature += part
                return closing(text, at)
            item.signature += part[:clause.start()]
            end = closing(text, at) + 1
            item.clauses.append((f"{clause.group(1)} {clause.group(2)}".strip(), text[at + 1:end - 1]))

    def bind(self, module, tree, public, front=()):
        """What a `use` brings in."""
        tree = tree.strip()
        head, brace, rest = tree.partition("{")
        if brace:
            front = front + tuple(part for part in head.strip().split("::") if part)
            for part in split_commas(rest.rsplit("}", 1)[0]):
                self.bind(module, part, public, front)
            return
        path, _, alias = tree.partition(" as ")
        path = front + tuple(part.strip() for part in path.strip().split("::") if part.strip())
        if path and path[-1] == "self":
            path = path[:-1]
        if path:
            self.bound[module, (alias or path[-1]).strip()] = (path, public)

    def file_of(self, path, module, name):
        folder = os.path.dirname(path)
        if os.path.basename(path) not in ("lib.rt", "main.rt", "mod.rt"):
            folder = path[:-3]
        for other in (os.path.join(folder, name + ".rt"), os.path.join(folder, name, "mod.rt")):
            if os.path.exists(other):
                self.read(other, module + (name,))


class Keeper:
    """Takes in what stands inside a trait or an `impl`."""

    def __init__(self, item):
        self.item = item

    def add(self, inner):
        self.item.inner.append(inner)


def outer_part(text):
    """A text without what stands in its braces, but for those of imports."""
    out, at = [], 0
    while at < len(text):
        place = text.find("{", at)
        if place < 0:
            out.append(text[at:])
            break
        out.append(text[at:place])
        end = closing(text, place)
        if text[:place].endswith("."):
            out.append(text[place:end + 1])
        at = end + 1
    return "".join(out)


def split_commas(text):
    """The parts between commas that stand in no braces."""
    parts, depth, last = [], 0, 0
    for at, mark in enumerate(text):
        depth += (mark == "{") - (mark == "}")
        if mark == "," and depth == 0:
            parts.append(text[last:at])
            last = at + 1
    return [part for part in parts + [text[last:]] if part.strip()]


class Tree:
    """All crates, and what their names mean."""

    def __init__(self):
        self.needs = dependencies()
        self.crates = {name: Crate(name) for name in self.needs if os.path.isdir(os.path.join(CRATES, name))}
        self.files = {}
        for crate in self.crates.values():
            for impl in crate.impls:
                self.meet(crate, impl)

    def meet(self, crate, impl):
        """Which trait an `impl` is of, and for which type."""
        head = re.sub(r"\bwhere\b.*", "", impl.signature, flags=re.S).strip()
        if head.startswith("<"):
            head = head[angle_end(head):]
        front, both, back = head.partition(" for ")
        impl.trait_name = RUST_WORD.findall(re.sub(r"<.*", "", front, flags=re.S))[-1:] if both else []
        names = RUST_WORD.findall(re.sub(r"<.*", "", back if both else front, flags=re.S))
        impl.target = self.resolve(crate, impl.module, names) if names else None
        impl.trait = self.resolve(crate, impl.module, impl.trait_name) if both else None
        impl.of_trait = bool(both)

    def resolve(self, crate, module, path, seen=()):
        """The item that a path names in a module, if it is one of this repository."""
        path = list(path)
        if not path or (crate.name, module, tuple(path)) in seen:
            return None
        seen = seen + ((crate.name, module, tuple(path)),)
        head, rest = path[0], path[1:]
        if head == "crate":
            return self.resolve(crate, (), rest, seen)
        if head == "self":
            return self.resolve(crate, module, rest, seen)
        if head == "super":
            return self.resolve(crate, module[:-1], rest, seen)
        if not rest and (module, head) in crate.items:
            return crate.items[module, head]
        if rest and module + (head,) in crate.modules:
            return self.resolve(crate, module + (head,), rest, seen)
        if (module, head) in crate.bound:
            to = crate.bound[module, head][0]
            if to[0] in ("crate", "self", "super") or to[0] != head or len(to) > 1:
                return self.resolve_from(crate, module, list(to) + rest, seen)
        if head in self.crates and rest:
            return self.resolve(self.crates[head], (), rest, seen)
        return None

    def resolve_from(self, crate, module, path, seen):
        """The item that a path of a `use` names: in the crate's own modules, or in another crate."""
        if path[0] in ("crate", "self", "super"):
            return self.resolve(crate, module, path, seen)
        if module + (path[0],) in crate.modules and len(path) > 1:
            return self.resolve(crate, module + (path[0],), path[1:], seen)
        if path[0] in self.crates and len(path) > 1:
            return self.resolve(self.crates[path[0]], (), path[1:], seen)
        return self.resolve(crate, module, path, seen)

    def exported(self, crate, module=()):
        """The items that a crate shows to others."""
        for (where, name), (path, public) in list(crate.bound.items()):
            if where == module and public:
                item = self.resolve_from(crate, module, list(path), ())
                if item:
                    yield item
                elif module + tuple(path[-1:]) in crate.modules:
                    yield from self.exported(crate, module + tuple(path[-1:]))
        for (where, name), item in list(crate.items.items()):
            if where == module and item.public:
                yield item
        for shown in crate.shown:
            if shown[:-1] == module:
                yield from self.exported(crate, shown)

    def spec(self, path):
        """The file of definitions that a module of an import names, and what is left of the name."""
        parts = path.split(".")
        if len(parts) < 3 or parts[0] != "Rattle" or parts[1] not in self.crates:
            return None
        crate = self.crates[parts[1]]
        if parts[2] != "specs" or parts[3:4] == ["declared"]:
            return None
        dotted = ".".join(parts[3:])
        if dotted not in crate.specs:
            return None
        key = (crate.name, dotted)
        if key not in self.files:
            self.files[key] = SpecFile(crate.specs[dotted])
        return key

    def declared(self, path, name):
        """The type that an import names which a `.rt` file declares."""
        parts = path.split(".")
        if parts[1] not in self.crates or parts[2:4] != ["specs", "declared"]:
            return None
        crate, rest = self.crates[parts[1]], [part for part in parts[4:] if part not in ("TheVariants", "TheConstants")]
        for cut in range(len(rest), -1, -1):
            module, inside = tuple(rest[:cut]), rest[cut:] or [name]
            if module in crate.modules and (module, inside[0]) in crate.items:
                return crate.items[module, inside[0]]
        return None


def angle_end(text):
    """Where the angle brackets at the front of a text are closed."""
    depth = 0
    for at, mark in enumerate(text):
        depth += (mark == "<") - (mark == ">" and text[at - 1:at] != "-")
        if depth == 0:
            return at + 1
    return len(text)
