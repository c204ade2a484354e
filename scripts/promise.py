"""Makes docs/PROMISE.md and docs/promise/: the promises with the clauses that claim them and their definitions down to the ground. The
sentences stand in docs/promise.in.md. Each name in them has to exist. Lines of it stand for what is made:

  @clauses CRATE CALL NAME..   clauses of a public call, all of them where none is named
  @types CRATE/FILE/NAME..     types that clauses name, shown with no definition below them
  @elsewhere CRATE/FILE/NAME.. types that the meaning of the clauses does not depend on, which no page shows
  @quote CRATE/FILE/NAME..     definitions that another page has with all that they use, quoted without those
  @definitions                 the definitions of the clauses above it that no page has shown yet, and an index of all of them
  @signs                       the signs and words that the page uses, or on their own page all of them
  @page NAME TITLE             begins docs/promise/NAME.md
  @promises                    a row of each page of a promise: its first paragraph, and the points with which FACTS begin. The page itself
                               has a link to that table in their place
"""
import os
import re
import sys

import pages
import sources
from sources import ROOT

TEMPLATE = ROOT / "docs/promise.in.md"
FOLDER = ROOT / "docs/promise"
HEADLINE = "PROMISE.md"
SIGNS_PAGE = "promise/signs.md"
BUILT_IN = {"×", "→"}  # signs of the language, which no file imports
MADE = "<!-- Made by `make docs` from docs/promise.in.md and the crates. -->"
# What stands in backticks and is a sign of a clause, or a part of one, is explained where it stands.
SIGNS = re.compile(r"[^\w:]|^(?:result|record|data|abbrev|unfoldable|now|A|J|requires|Ok|Err|Result)$")
BELOW = "## Definitions\n\nWhat an earlier page has shown is not shown again: the index links to it.\n\n"
HEAD_OF_SIGNS = "| Sign or word | Meaning |\n|---|---|\n"
# The points of a promise's page that the table of all promises has.
FACTS = ("Premises", "Only tested", "Gap")
TABLE = "8-all-promises"


def anchor(word):
    return f"{word.crate}.{word.anchor}"


def word_of(key):
    """A type or a definition that is said as CRATE/FILE/NAME."""
    crate, file, name = key.split("/")
    return sources.rust_item(crate, name, f"{file}.rt") or sources.spec_file(crate, file)[name]


def source_of(it):
    """The file of a crate, of a call or of a word, as a path below docs/."""
    if isinstance(it, str):
        return os.path.relpath(sources.root_file(it), ROOT / "docs")
    return f"../{it.place}" if isinstance(it, sources.Word) else f"../crates/{it.crate}/src/{it.file}"


def seen_fields(words):
    """What contracts see the fields of these types as."""
    models = {it.name: sources.model_of(it).text for kind in words if kind.is_rust for it in kind.fields if sources.model_of(it)}
    said = [f"`{name}` as `{text}`" for name, text in sorted(models.items())]
    return f"Seen in a contract: {', '.join(said)}.\n" if said else ""


class Page:
    """A page while it is written: its lines, the words of its clauses, and those that it shows."""

    def __init__(self, book, name, title):
        self.book, self.name, self.title = book, name, title
        self.lines, self.roots, self.shallow, self.elsewhere, self.shown, self.texts = [], [], [], [], [], []
        self.facts = {}

    @property
    def number(self):
        """The number of its promise with a dot, on a page that has one."""
        name = self.name.removeprefix("promise/").removesuffix(".md")
        return f"{name}. " if name.isdigit() else ""

    def link(self, said, path, place=""):
        """A link to a path below docs/."""
        file = "" if path == self.name else os.path.relpath(path, os.path.dirname(self.name) or ".")
        return f"[{said}]({file}{'#' if place else ''}{place})"

    def named(self, word):
        return self.link(f"`{word.name}`", self.book.places.get(word, self.name), anchor(word))

    def show_clauses(self, crate, path, wanted):
        call = sources.function(crate, path)
        missing = set(wanted) - {name for name, _ in call.clauses}
        if missing:
            sys.exit(f"{TEMPLATE.name}: {path} of {crate} has no clause {', '.join(sorted(missing))}")
        self.roots += [it for it in call.words(wanted or None) if it not in self.roots]
        self.texts.append((path, call.text(wanted or None), call.scope))
        rest = len(call.clauses) - len(wanted) if wanted else 0
        more = f"; {rest} more {'clauses stand' if rest > 1 else 'clause stands'} there" if rest else ""
        link = self.link(f"`{path}`", source_of(call))
        return f"{link}, of `{crate}`{more}:\n\n" + pages.fenced(call.text(wanted or None), "rust").rstrip("\n") + "\n"

    def quote(self, keys):
        parts = [key.split("/") for key in keys]
        words = [sources.spec_file(crate, file)[name] for crate, file, name in parts]
        self.texts += [(it.name, it.shown, it.scope) for it in words]
        return pages.fenced("\n\n".join(it.code for it in words), "text").rstrip("\n") + "\n"

    def show_types(self, keys):
        types = [*map(word_of, keys)]
        self.shallow += types
        self.roots += types

    def show_definitions(self):
        """The words of the clauses, and those that they are made of, each before those; and an index of all."""
        below = []

        def add(word):
            if word not in below and word not in self.elsewhere:
                below.append(word)
                for other in word.uses if word not in self.shallow else []:
                    add(other)

        for root in self.roots:
            add(root)
        self.shown = [it for it in below if it not in self.book.places]
        self.book.places.update((it, self.name) for it in self.shown)
        text, at = "", 0
        while at < len(self.shown):
            same = [self.shown[at]]
            while at + len(same) < len(self.shown) and self.shown[at + len(same)].place == same[0].place:
                same.append(self.shown[at + len(same)])
            text += self.entries(same)
            at += len(same)
        index = ", ".join(self.named(it) for it in sorted(below, key=lambda it: it.name.lower()))
        head = "" if self.name == HEADLINE else BELOW
        return f"{head}{text}{seen_fields(self.shown)}\nIndex: {index}."

    def entries(self, words):
        """Definitions that follow one another in one file."""
        places = "".join(f'<a id="{anchor(it)}"></a>' for it in words)
        codes = ["\n".join([*(f"/// {line}".rstrip() for line in it.said.split("\n") if it.said), it.shown]) if it.is_rust else it.code
                 for it in words]
        kind = "rust" if words[0].is_rust else "text"
        return f"{places}{self.link(f'`{words[0].place}`', source_of(words[0]))}\n\n" + pages.fenced("\n\n".join(codes), kind)

    def library_names(self):
        """The names of Rattle's library that the page uses, each beside what uses it."""
        found = []
        for user, text, scope in [*((it.name, it.shown, it.scope) for it in self.shown), *self.texts]:
            for path, listed, _ in [*scope.lines, *(scope.base.lines if scope.base else [])]:
                for _, name in sources.listed_names(listed) if not path.startswith("Rattle.txc") else []:
                    parts = name.replace("◌", " ").split()
                    if parts and all(re.search(rf"(?<![\w.]){re.escape(it)}(?!\w)" if it[0].isalnum() else re.escape(it), text)
                                     for it in parts):
                        found.append((user, name))
        return found

    def signs(self):
        """The rows of signs that the page uses; on the page of signs all of them."""
        if self.name == SIGNS_PAGE:
            return HEAD_OF_SIGNS + "".join(self.book.signs)
        used = {it for _, name in self.library_names() for it in name.replace("◌", " ").split()}
        used |= {it for it in BUILT_IN if any(it in text for text in [word.shown for word in self.shown] + [text for _, text, _ in self.texts])}
        rows = [row for row in self.book.signs if used & set(said_in(row)) or "`λ x. t`" in row]
        return HEAD_OF_SIGNS + "".join(rows)


def said_in(row):
    """The signs that a row of the table explains."""
    said = re.findall(r"`([^`]+)`", row.replace("\\|", "|").split(" | ")[0])
    return re.findall(r"[^\s,()]+", " ".join(said))


class Book:
    """All pages, with the one on which each word is shown, and the rows of signs."""

    def __init__(self, source):
        self.places, self.pages, self.names = {}, [], None
        self.signs = [f"{line}\n" for line in source.partition(HEAD_OF_SIGNS)[2].partition("\n\n")[0].split("\n")]
        title, *parts = re.split(r"(?m)^@page ", source.replace(HEAD_OF_SIGNS + "".join(self.signs), "@signs\n"))
        self.write(HEADLINE, "", title)
        for part in parts:
            head, _, text = part.partition("\n")
            name, _, title = head.partition(" ")
            self.write(f"promise/{name}.md", title, text)

    def write(self, name, title, text):
        page = Page(self, name, title)
        self.pages.append(page)
        facts = "|".join(FACTS)
        for fact in re.findall(rf"(?m)^- ((?:{facts}): .*(?:\n  .*)*)\n", text):
            head, _, said = " ".join(fact.split()).partition(": ")
            page.facts[head] = said.rstrip(".")
        link = f"Premises, tests and gaps: {page.link('all promises', HEADLINE, TABLE)}.\n"
        text = re.sub(rf"(?m)^(?:- (?:{facts}): .*(?:\n  .*)*\n)+", link, text)
        for line in text.strip().split("\n"):
            if line.startswith("@clauses "):
                crate, path, *wanted = line.split()[1:]
                page.lines.append(page.show_clauses(crate, path, wanted))
            elif line.startswith("@quote "):
                page.lines.append(page.quote(line.split()[1:]))
            elif line.startswith("@types "):
                page.show_types(line.split()[1:])
            elif line.startswith("@elsewhere "):
                page.elsewhere += map(word_of, line.split()[1:])
            elif line == "@definitions":
                page.lines.append(page.show_definitions())
            else:
                page.lines.append(line)

    def promises(self, here):
        """A row of each page of a promise."""
        text = f"| Promise | {' | '.join(FACTS)} |\n|---|{'---|' * len(FACTS)}\n"
        for page in self.pages:
            if page.number:
                first = " ".join("\n".join(page.lines).partition("\n\n")[0].split())
                text += f"| {page.number}{here.link(page.title, page.name)}. {first} | {' | '.join(page.facts[it] for it in FACTS)} |\n"
        return text.rstrip()


class Names:
    """The names that the sentences may have, with what each is a link to."""

    def __init__(self, book):
        self.signs = {name for page in book.pages for _, name in page.library_names()}
        self.shown, self.kinds, self.calls, self.clauses = {}, {}, {}, set()
        for word in book.places:
            self.shown.setdefault(word.name, []).append(word)
        for crate in sources.documented():
            kinds, calls = sources.public_api(crate)
            for kind in kinds:
                self.kinds.setdefault(kind.name, []).append(kind)
            for call in calls:
                self.calls.setdefault(call.path, []).append(call)
                self.calls.setdefault(call.name, []).append(call)
            self.clauses |= {name for call in sources.functions(crate) for name, _ in call.clauses}

    def link(self, said, line, here):
        """A name as a link, where it is one of a definition, a crate, a type, a call or a test; ends where it is nothing."""
        # in a row of the table of crates a name is one of its crate, where that has it
        crates = re.findall(r"`(txc_\w+)`", line.split("|")[1]) if line.startswith("| `txc_") else []
        if SIGNS.search(said) or said in self.signs or (not crates and said in self.clauses):
            return f"`{said}`"
        if said in sources.crates():
            return here.link(f"`{said}`", source_of(said))
        if not crates and len(self.shown.get(said, [])) == 1:
            return here.named(self.shown[said][0])
        own_first = lambda them: sorted(them, key=lambda it: it.crate not in crates)
        for kind in own_first(self.kinds.get(said, [])):
            return here.link(f"`{said}`", source_of(kind))
        for call in own_first(self.calls.get(said, [])):
            return here.link(f"`{said}`", source_of(call))
        for path in ROOT.glob("tests/*/src/**/*.rt.in"):
            if f"fn {said}(" in path.read_text():
                return here.link(f"`{said}`", f"../{path.relative_to(ROOT)}")
        if said == "laws" and all("laws" in sources.exported(it)[1] for it in crates):
            return "`laws`"
        sys.exit(f"{TEMPLATE.name}: there is no `{said}`")


def linked(text, names, page):
    """The sentences, with each name that they have as a link."""
    lines, in_code = [], False
    for line in text.split("\n"):
        in_code ^= line.startswith("```")
        is_made = in_code or line.startswith(("```", "#", "Index: ", "<a id", "[`", "Seen in", "<!--"))
        lines.append(line if is_made else re.sub(r"(?<!\[)`([^`]+)`", lambda it: names.link(it[1], line, page), line))
    return "\n".join(lines)


def check_signs(book):
    """Ends where a name of Rattle's library that a page uses has no row in the table of signs and words."""
    explained = {it for row in book.signs for it in said_in(row)}
    for page in book.pages:
        for user, name in page.library_names():
            if not all(it in explained or it == "if" for it in name.replace("◌", " ").split()):
                sys.exit(f"{TEMPLATE.name}: no row says what `{name}` is, of which {user} is made")


def written():
    """Each page by its path, with what it says."""
    book = Book(TEMPLATE.read_text())
    check_signs(book)
    names, found = Names(book), {}
    for page in book.pages:
        head = f"# {page.number}{page.title}\n\n{MADE}\n\n" if page.title else ""
        text = head + "\n".join(page.lines)
        text = text.replace("@promises", book.promises(page)).replace("@made", MADE)
        text = re.sub(r"(?m)^@signs$", lambda it: page.signs().rstrip(), text)
        found[ROOT / "docs" / page.name] = re.sub(r"\n{3,}", "\n\n", linked(text, names, page)).rstrip() + "\n"
    return found
