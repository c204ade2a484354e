"""Reads crates.txt, and the sources for the documents: the definitions of specs/, and the types, constants and functions of src/, each
with its comment, its text, and the words that its text uses, followed through the `use` lines of its file."""
import pathlib, re
from dataclasses import dataclass
from functools import lru_cache

ROOT = pathlib.Path(__file__).resolve().parent.parent
ITEM = re.compile(r"(?!pub use\b)(?:abbrev|unfoldable|pub|record|data)\b(?: (?:abbrev|unfoldable|pub|record|data)\b)* ([^\s:{(]+)")
USE = re.compile(r"^ *(?:pub )?(?:ghost )?use ([^;{\s]+?)(?:\.\{([^}]*)\})?(?: as (\w+))?;?$", re.M)
TYPE = re.compile(r"( *)pub(?:\([^)]*\))? (struct|enum|trait|type|const|static) (\w+)")
FN = re.compile(r'( *)(pub(?:\([^)]*\))? )?(?:const )?(?:unsafe )?(?:extern "C" )?fn (\w+)')
RUST_USE = re.compile(r"^(?:pub )?use ((?:\w+::)+)(?:(\w+)|\{([^}]*)\});$", re.M)
MODEL = re.compile(r"^impl.*? Model for (\w+)")
# The comment of crates.txt that heads a layer.
LAYER = re.compile(r"# Layer ([a-z ]+): (.+)")
# Words of the language and of no crate, which a text uses without a definition.
NOT_WORDS = {"record", "data", "pub", "abbrev", "unfoldable", "where", "let", "in", "if", "then", "else", "use", "Type"}


@dataclass(frozen=True)
class Layer:
    """A layer of crates.txt: its name, what its crates have in common, and their names."""

    name: str
    says: str
    crates: list[str]


@lru_cache(None)
def layers() -> tuple[Layer, ...]:
    """The layers of crates.txt, the lowest first. What stands before the first of them is in none."""
    found: list[Layer] = []
    for line in (ROOT / "crates.txt").read_text().split("\n"):
        head, row = LAYER.fullmatch(line), line.partition("#")[0]
        if head:
            found.append(Layer(head[1], head[2], []))
        elif ":" in row and found:
            found[-1].crates.append(row.split(":")[0].split()[0])
    return tuple(found)


@lru_cache(None)
def used(*files: str) -> dict[str, list[str]]:
    """The libraries that each crate of these lists uses: by default of crates.txt, in its order."""
    rows = [line.partition("#")[0] for it in files or ("crates.txt",) for line in (ROOT / it).read_text().split("\n")]
    return {row.split(":")[0].split()[0]: row.split(":")[1].split() for row in rows if ":" in row}


def crates() -> list[str]:
    """The crates' names, in the order of crates.txt."""
    return list(used())


def lowest_first() -> list[str]:
    """The crates' names, each after those that it uses."""
    below = {crate: len(brought([crate], used())) for crate in crates()}
    return sorted(below, key=below.__getitem__)


def brought(libraries: list[str], lists: dict[str, list[str]]) -> set[str]:
    """What the crates among these libraries use, and what is below that."""
    found: set[str] = set()
    left = [other for it in libraries for other in lists.get(it, [])]
    while left:
        it = left.pop()
        if it not in found:
            found.add(it)
            left += lists.get(it, [])
    return found


def root_file(crate: str) -> pathlib.Path:
    """The root of a crate's source, which says what the crate does: a library's lib.rt, a program's main.rt; of one of tests/ too."""
    folders = (ROOT / "crates" / crate / "src", ROOT / "tests" / crate / "src")
    files = [folder / f"{name}.rt{ending}" for folder, ending in zip(folders, ("", ".in")) for name in ("lib", "main")]
    return next(it for it in files if it.is_file())


def programs() -> set[str]:
    """The crates that are programs."""
    return {it for it in crates() if root_file(it).stem == "main"}


def uses() -> set[str]:
    """The crates that only call the others: the libraries of the last layer that no crate uses."""
    below = {it for libraries in used("crates.txt", "tests/crates.txt.in").values() for it in libraries}
    return {*layers()[-1].crates} - below - programs()


def documented() -> list[str]:
    """Those that have a page."""
    return [it for it in crates() if it not in uses()]


class Word:
    """A definition of specs/, or a type or constant of src/."""

    def __init__(self, crate, file, name, said, text, scope):
        self.crate, self.file, self.name, self.said, self.text, self.scope = crate, file, name, said, text, scope
        self._uses = None

    def __repr__(self):
        return self.key

    @property
    def key(self):
        return f"{self.crate}/{self.file}/{self.name}"

    @property
    def is_rust(self):
        return self.file.startswith("src/")

    @property
    def anchor(self):
        """Its place on the page of its crate: a type's is its name."""
        return self.name if self.is_rust else f"{self.file}.{self.name}"

    @property
    def place(self):
        """Its file, as a reader looks for it."""
        return f"crates/{self.crate}/" + (self.file if self.is_rust else f"specs/{self.file}.antt")

    @property
    def code(self):
        """Its comment and its text, as they stand in its file."""
        mark = "///" if self.is_rust else "--"
        return "\n".join([*(f"{mark} {line}".rstrip() for line in self.said.split("\n") if self.said), self.text])

    @property
    def shown(self):
        """Its text, without the private fields of a type."""
        lines = self.text.split("\n")
        if not re.match(r"pub(?:\([^)]*\))? struct", lines[0]) or not lines[0].endswith("{"):
            return self.text
        kept = [n for n, line in enumerate(lines) if re.match(r"    pub \w", line)]
        if not kept:
            return lines[0].removesuffix(" {") + " { .. }"
        if not any(re.match(r"    (?!pub )\w.*: ", line) for line in lines):
            return self.text
        # a field's comment goes with it
        before = {n - 1 - k for n in kept for k in range(n) if all(it.strip().startswith("//") for it in lines[n - 1 - k:n])}
        return "\n".join([lines[0], *(lines[n] for n in sorted({*kept, *before})), "    ..", "}"])

    @property
    def fields(self):
        """The types of src/ that its text names."""
        return rust_types(self) if self.is_rust else []

    @property
    def uses(self):
        """The words that its text uses, in order, each once; and of a type of src/ what its fields are seen as."""
        if self._uses is None:
            found = self.scope.words(self.shown)
            for kind in self.fields:
                found += [kind] if kind.seen is None else kind.seen
            self._uses = [it for n, it in enumerate(found) if it is not self and it not in found[:n]]
        return self._uses

    @property
    def seen(self):
        """What a contract sees its values as: the words of its model, and none where it has none."""
        value = model_of(self)
        return value.scope.words(value.text) if value else None


class Model:
    def __init__(self, text, scope):
        self.text, self.scope = text, scope


class Scope:
    """What the names of a file, or of an `impl` of it, mean."""

    def __init__(self, crate, uses, own, base=None):
        self.crate, self.lines, self.own, self.base = crate, uses, own, base
        self._known = None

    def known(self):
        """Each name of the scope beside the word that it is, and each alias beside the names of its module."""
        if self._known is None:
            names, aliases = (dict(it) for it in self.base.known()) if self.base else ({}, {})
            for path, listed, alias in self.lines:
                module = module_of(path)
                if module is None:
                    continue
                if alias:
                    aliases[alias] = module
                for name, called in listed_names(listed):
                    if name in module:
                        names[called] = module[name]
            names.update(self.own)
            self._known = names, aliases
        return self._known

    def words(self, text):
        """The words that a text uses, in order, each once."""
        names, aliases = self.known()
        found = []
        for piece in equations(text):
            bound = bound_in(piece)
            for token in re.findall(r"[^\s(){}\[\],;]+", without_labels(piece)):
                first, *rest = token.split(".")
                if first in aliases and rest and rest[0] in aliases[first]:
                    word = aliases[first][rest[0]]
                elif first in names and first not in bound and first not in NOT_WORDS:
                    word = names[first]
                else:
                    continue
                if word not in found:
                    found.append(word)
        return found


def listed_names(listed):
    """The names of a list of imports, each beside what it is called here."""
    pairs = [it.partition(" as ") for it in re.split(r",\s*", listed or "")]
    return [(name.strip(), called.strip() or name.strip()) for name, _, called in pairs]


def equations(text):
    """The signature and the equations of a definition: a line that is not indented begins one."""
    return re.split(r"\n(?=\S)", text)


def without_labels(piece):
    """Without the names of fields that are given or declared, of clauses, and without comments."""
    piece = re.sub(r"^\s*(?:--|//).*$", "", piece, flags=re.M)
    piece = re.sub(r"([{;]|^\s+)\s*\w+ =(?= )", r"\1 ", piece, flags=re.M)
    piece = re.sub(r"\b(?:ensures|requires) \w+ \{", "{", piece)
    return re.sub(r"^(\s+)(?:pub )?\w+ :(?= )", r"\1", piece, flags=re.M)


def bound_in(piece):
    """The names that an equation binds: on its left side, after a λ, and before a colon in brackets."""
    bound = set()
    left, equals, _ = piece.partition(" =")
    if equals and ":" not in left.replace("::", ""):
        # what stands first in brackets is a constructor
        bound |= set(re.findall(r"(?<![(\w.])[a-z_]\w*", left.partition(" ")[2]))
    for names in re.findall(r"λ ([^.]*)\.", piece):
        bound |= set(re.findall(r"[a-zA-Z_]\w*", re.sub(r":[^)]*\)", ")", names)))
    for names in re.findall(r"\(([\w ]+) : ", piece):
        bound |= set(names.split())
    return bound


def comment(lines, end, mark="-- "):
    """The comment that ends just before a line, as its lines."""
    start = end
    while start > 0 and lines[start - 1].startswith(mark.rstrip()) and not lines[start - 1].startswith(mark + "----"):
        start -= 1
    return [line.removeprefix(mark.rstrip()).strip() for line in lines[start:end]]


def use_lines(text):
    """The imports of a text: of each its path, the names that it lists, and its alias."""
    return USE.findall(re.sub(r"\.\{[^{}]*\}", lambda it: " ".join(it[0].split()), text))


@lru_cache(None)
def spec_file(crate, stem):
    """The definitions of a file of specs/: by name, a constructor being that of its type; none where there is no such file."""
    path = ROOT / "crates" / crate / "specs" / f"{stem}.antt"
    if not path.is_file():
        return None
    lines = path.read_text().split("\n")
    own = {}
    scope = Scope(crate, use_lines(path.read_text()), own)
    at = [n for n, line in enumerate(lines) if ITEM.match(line)]
    for start, end in zip(at, at[1:] + [len(lines)]):
        body = lines[start:end]
        cut = next((n for n, line in enumerate(body) if line.startswith("--")), len(body))
        name = ITEM.match(lines[start])[1]
        word = Word(crate, stem, name, "\n".join(comment(lines, start)), "\n".join(body[:cut]).strip(), scope)
        own[name] = word
        if " data " in f" {lines[start]}":
            for constructor in re.findall(r"^  (?:pub )?(\w+) :", word.text, re.M):
                own.setdefault(constructor, word)
    # what a file takes in by `pub use` it hands out
    for it in re.findall(r"^pub use .*", path.read_text(), re.M):
        for module_path, listed, _ in use_lines(it):
            for name, called in listed_names(listed):
                module = module_of(module_path)
                if module and name in module:
                    own.setdefault(called, module[name])
    return own


@lru_cache(None)
def source_files(crate):
    """Each file of src/ by its path there."""
    folder = ROOT / "crates" / crate / "src"
    return {str(path.relative_to(folder)): path.read_text() for path in sorted(folder.glob("**/*.rt"))}


def block_end(lines, at):
    """The last line of the item that begins at a line."""
    indent = re.match(" *", lines[at])[0]
    for n in range(at, len(lines)):
        line = lines[n]
        if n == at and line.rstrip().endswith((";", "{}", "}")):
            return n
        if n > at and line in (indent + "}", indent + "};", indent + "];", indent + ");"):
            return n
    return at


@lru_cache(None)
def impls(crate, file):
    """The `impl`s and traits of a file: first and last line, their head, and their scope."""
    text = source_files(crate)[file]
    lines, found = text.split("\n"), []
    outer = file_scope(crate, file)
    for at, line in enumerate(lines):
        if re.match(r"(unsafe )?impl\b|pub(?:\([^)]*\))? trait |trait ", line):
            end = block_end(lines, at)
            scope = Scope(crate, use_lines("\n".join(lines[at:end + 1])), {}, outer)
            head = re.split(r"\{|\bwhere\b", " ".join(lines[at:at + 8]))[0]
            found.append((at, end, head, scope))
    return found


@lru_cache(None)
def file_scope(crate, file):
    text = source_files(crate)[file]
    return Scope(crate, [it for line in text.split("\n") if line.startswith("ghost use") for it in use_lines(line)], {})


def scope_at(crate, file, at):
    return next((scope for start, end, _, scope in impls(crate, file) if start <= at <= end), file_scope(crate, file))


@lru_cache(None)
def rust_items(crate):
    """The types and constants of a crate, by file and name."""
    found = {}
    for file, text in source_files(crate).items():
        lines = text.split("\n")
        for at, line in enumerate(lines):
            item = TYPE.match(line)
            if item and not item[1]:
                start = at
                while start > 0 and lines[start - 1].startswith("#["):
                    start -= 1
                said = "\n".join(comment(lines, start, "/// "))
                body = [it for it in lines[at:block_end(lines, at) + 1] if not re.match(r"\s*#\[", it)]
                scope = scope_at(crate, file, at)
                found[file, item[3]] = Word(crate, f"src/{file}", item[3], said, "\n".join(body), scope)
    return found


def rust_item(crate, name, file=None):
    """A type or constant of a crate by its name, in a file if one is named."""
    items = rust_items(crate)
    if file and (file, name) in items:
        return items[file, name]
    return next((word for (_, other), word in items.items() if other == name), None)


@lru_cache(None)
def rust_uses(crate, file):
    """The crate of each name that a file takes in."""
    text = re.sub(r"\{([^}]*)\}", lambda it: "{" + " ".join(it[1].split()) + "}", source_files(crate)[file])
    found = {}
    for path, one, listed in RUST_USE.findall(text):
        first = path.split("::")[0]
        for name in [one] if one else re.split(r",\s*", listed):
            found[name.split(" ")[0]] = crate if first in ("crate", "self", "super") else first
    return found


def rust_words(crate, file, text):
    """The types and constants of src/ that a text of a file names, in order, each once."""
    found = []
    for name in re.findall(r"(?<![\w.])[A-Z]\w*", re.sub(r"//.*", "", text)):
        owner = rust_uses(crate, file).get(name, crate)
        item = rust_item(owner, name) if (ROOT / "crates" / owner).is_dir() else None
        if item and item not in found:
            found.append(item)
    return found


def rust_types(word):
    """The types and constants of src/ that the text of one names, but for itself; the name of a variant is none of them."""
    code = re.sub(r"^    [A-Z]\w*", "", word.shown, flags=re.M)
    return [it for it in rust_words(word.crate, word.file.removeprefix("src/"), code) if it is not word]


@lru_cache(None)
def models(crate):
    """The models of a crate's types: by name, what their values are seen as."""
    found = {}
    for file, text in source_files(crate).items():
        lines = text.split("\n")
        for start, end, head, scope in impls(crate, file):
            kind = re.search(r"Model for (\w+)", head)
            value = re.search(r"ghost Value = \{(.*?)\};", "\n".join(lines[start:end + 1]), re.S)
            if kind and value:
                found[kind[1]] = Model(value[1].strip(), scope)
    return found


def model_of(word):
    return models(word.crate).get(word.name) if word.is_rust else None


@lru_cache(None)
def module_of(path):
    """The names of a module of specs, each beside its word; none where it is of no crate of ours."""
    parts = path.removesuffix(".").split(".")
    if len(parts) < 4 or parts[0] != "Rattle" or not (ROOT / "crates" / parts[1]).is_dir() or parts[2] != "specs":
        return None
    crate, inner = parts[1], parts[3:]
    if inner[0] != "declared":
        return spec_file(crate, inner[0]) if len(inner) == 1 else None
    *folders, last = inner[1:]
    if last == "TheConstants":
        return Declared(crate, "/".join(folders) + ".rt", None)
    if last == "TheVariants":
        return Declared(crate, "/".join(folders[:-1]) + ".rt", folders[-1])
    return Declared(crate, "/".join(folders) + ".rt", None)


class Declared:
    """A module that stands for a file of src/: its types and constants; or for the variants of one type."""

    def __init__(self, crate, file, kind):
        self.crate, self.file, self.kind = crate, file, kind

    def __contains__(self, name):
        return self[name] is not None

    def __getitem__(self, name):
        return rust_item(self.crate, self.kind or name, self.file)


class Function:
    """A public function: its owner, if it has one, its comment, its signature, and its clauses by name, in order."""

    def __init__(self, crate, file, owner, name, said, head, clauses, scope, is_public):
        self.crate, self.file, self.owner, self.name, self.said = crate, file, owner, name, said
        self.head, self.clauses, self.scope, self.is_public = head, clauses, scope, is_public

    @property
    def path(self):
        return f"{self.owner}::{self.name}" if self.owner else self.name

    def text(self, wanted=None):
        """Its signature with its clauses, or with those of the names that are wanted."""
        kept = [text for name, text in self.clauses if wanted is None or name in wanted]
        return dedent("\n".join([self.head, *kept]))

    def words(self, wanted=None):
        """The words of its clauses: definitions first, and then types and constants that they name as Rust does."""
        text = "\n".join(text for name, text in self.clauses if wanted is None or name in wanted)
        found, known = self.scope.words(text), self.scope.known()[0]
        named = rust_words(self.crate, self.file, without_labels(text))
        return found + [it for it in named if it.name not in known and it not in found]


def dedent(text):
    lines = text.split("\n")
    least = min((len(line) - len(line.lstrip()) for line in lines if line.strip()), default=0)
    return "\n".join(line[least:] for line in lines)


def contract(lines, at, indent):
    """The signature, and the clauses by name, of the function that begins at a line."""
    head, clauses, current, remarks = [], [], None, ""
    for line in lines[at:]:
        clause = re.match(rf"{indent}    (requires|ensures|decreases)\*? (?:(\w+) )?\{{", line)
        ends = line.startswith((indent + "{", indent + "}"))
        if clause:
            current, remarks = [clause[2] or clause[1], remarks + line], ""
            clauses.append(current)
            if line.endswith("};"):
                break
        elif line.strip().startswith("//"):
            remarks += line + "\n"
        elif ends:
            break
        elif current:
            current[1] += "\n" + line
            if line.endswith("};"):
                break
        else:
            head.append(line)
            if line.endswith((" {", ";", "{}")):
                head[-1] = re.sub(r"( \{\}?|;)$", "", line)
                break
    return "\n".join(head), [(name, re.sub(r";$", "", text)) for name, text in clauses]


@lru_cache(None)
def functions(crate):
    """The functions of a crate, but for its tests."""
    found = []
    for file, text in source_files(crate).items():
        lines = text.split("\n")
        for at, line in enumerate(lines):
            fn = FN.match(line)
            if not fn or fn[1] not in ("", "    "):
                continue
            holder = next(((head, scope) for start, end, head, scope in impls(crate, file) if start < at <= end), None)
            if fn[1] and not holder:
                continue
            start = at
            while start > 0 and lines[start - 1].strip().startswith("#["):
                start -= 1
            if any(it.strip() == "#[test]" for it in lines[start:at]):
                continue
            said = "\n".join(comment([it.strip() for it in lines], start, "/// "))
            head, clauses = contract(lines, at, fn[1])
            owner, trait = owner_of(holder[0]) if holder else (None, None)
            is_trait = holder is not None and "trait " in holder[0].split("<")[0] and not holder[0].startswith(("impl", "unsafe"))
            is_public = fn[2] == "pub " or (is_trait and holder[0].startswith("pub trait"))
            scope = holder[1] if holder else file_scope(crate, file)
            found.append(Function(crate, file, owner, fn[3], said, head, clauses, scope, is_public and not (trait and not is_trait)))
    return found


def owner_of(head):
    """The type that an `impl` or a trait is of, and the trait that it implements, if it does."""
    head = head.strip()
    named = re.match(r"(?:pub(?:\([^)]*\))? )?trait (\w+)", head)
    if named:
        return named[1], None
    head = re.sub(r"^(?:unsafe )?impl", "", head)
    if head.startswith("<"):
        depth = 0
        for n, c in enumerate(head):
            depth += (c == "<") - (c == ">" and head[n - 1] != "-")
            if depth == 0:
                head = head[n + 1:]
                break
    trait, is_for, kind = head.partition(" for ")
    name = re.search(r"\w+", (kind if is_for else trait).replace("&", "").strip())
    return (name[0] if name else None), (trait.strip() if is_for else None)


def function(crate, path):
    """A function of a crate by its path."""
    found = [it for it in functions(crate) if it.path == path]
    if len(found) != 1:
        raise LookupError(f"{len(found)} functions of {crate} are called {path}")
    return found[0]


@lru_cache(None)
def exported(crate):
    """The names that a crate hands out, in the order of its root; and the modules of which it hands out all."""
    root = ROOT / "crates" / crate / "src/lib.rt"
    if not root.is_file():
        return [], []
    text = " ".join(root.read_text().split("\n"))
    names = []
    for listed, one in re.findall(r"pub use (?:\w+::)+(?:\{([^}]*)\}|(\w+));", text):
        names += [it.split(" as ")[-1].strip() for it in (listed or one).split(",") if it.strip()]
    return names, re.findall(r"pub mod (\w+);", text)


@lru_cache(None)
def public_api(crate):
    """The public types and constants of a crate, and its public functions, in the order of its files."""
    names, modules = exported(crate)
    in_module = lambda file: file.split("/")[0].removesuffix(".rt") in modules
    types = [word for (file, name), word in rust_items(crate).items()
             if name in names or (in_module(file) and re.match(r"pub (?!\()", word.text))]
    public = {word.name for word in types}
    calls = [it for it in functions(crate) if it.is_public
             and (it.owner in public if it.owner else it.name in names or in_module(it.file))]
    return types, calls


def purpose(crate: str) -> str:
    """The first sentence of the crate's documentation; empty where it has none."""
    head = re.match(r"((?://! .*\n)+)", root_file(crate).read_text())
    return " ".join(line[4:] for line in head[1].strip().split("\n")).split(". ")[0].rstrip(".") + "." if head else ""
