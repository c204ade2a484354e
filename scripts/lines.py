"""Makes the forms of lines in docs/SCRIPTS.md. How a line is written is made of the tables by which lines are read: in a table of lines the
first cell of each row, and the rows of QUERY and CHANGE. The other cells are written by hand.

In the tables of worlds what a word is called stands beside its kind. In that of nodes it heads the comment above the row.
"""
import re

from sources import ROOT

# Of which kind a word of a node's line or of a job is, by what it is called.
KINDS = {"Stamp": "STAMP LO HI KNOWN HORIZON", "Key": "KEY", "Tags": "TAGS", "Bytes": "HEX", "Reach": "still closed", "moment": "NOW STALENESS"}
KIND_OF = {word: kind for kind, words in KINDS.items() for word in words.split()}


def node_forms():
    """Each line of mode node, by its name: as it is written, in each way."""
    source = (ROOT / "crates/txc_script_node/specs/Lines.antt").read_text()
    found = re.findall(r'\n-- ([A-Z]+(?: \w+)*).*\nabbrev pub \w+ : LineForm.*\n[^\n]*\{\s+name = codes "(\w+)";\s+kinds = ((?:\w+ ∷ )+)\[\]', source)
    forms = {}
    for words, name, kinds in found:
        if [KIND_OF[it] for it in words.split()] != kinds.split(" ∷ ")[:-1]:
            raise SystemExit(f"crates/txc_script_node/specs/Lines.antt: the words of `{name}` are not of the kinds of their names")
        forms[name] = [f"{name} {words}"] + [f"{name} {words}".replace("still", "closed")] * ("still" in words.split())
    return forms


def world_forms():
    """Each line of mode world, by its name, with what ends it, if anything does; and the forms of a query and of a change."""
    source, names = ((ROOT / f"crates/{it}.antt").read_text() for it in ("txc_script_lines/specs/Faults", "txc_script_lines/specs/Names"))
    words = (ROOT / "crates/txc_script/specs/Lines.antt").read_text()
    ends = {"QUERY": [], "CHANGE": []}
    rows = re.findall(r"\nparts_(\w+) (?:\w+\.)?(\w+) =\s+(.*)", source)
    labels = lambda term: re.findall(r'codes "(\w+)"', term)
    for of, name, term in rows:
        if of.startswith("of_"):
            text = re.search(rf'\n{of[3:]}_text \w+\.{name} = codes "([\w-]+)"', words)[1]
            ends[of[3:].upper()].append(" ".join([text, *labels(term)]))
    after = {name: term for of, name, term in rows if of == "after"}
    lasts = {name: part.upper() for name, part in re.findall(r"kinds_after_name names\.(\w+) second = (query|change)_line", source)}
    forms = {}
    for name, text in re.findall(r'name_text names\.(\w+) = codes "(\w+)"', names):
        term = after.get(name, after["name"])
        if not term.startswith("parts_of_change"):
            forms[text] = (" ".join([text, *labels(term)]), lasts.get(name))
    return forms, ends


def job_form():
    """The line of a job, whose last word may stand again."""
    source = (ROOT / "crates/txc_script_batch/specs/Orders.antt").read_text()
    moments, key = re.search(r"kinds_for \((.*) ∷ \[\]\) word_kinds\.(\w+) words", source).groups()
    return [*moments.split(" ∷ "), key]


def filled(text, head, forms):
    """The text with the first cells of the table of this section made anew; each form has its row, and each row its form."""
    before, heading, after = text.partition(f"\n{head}\n")
    start, line, rest = after.partition("\n| Line |")
    table, end, behind = rest.partition("\n\n")
    left = {name: list(shown) for name, shown in forms.items()}

    def row(found):
        name = re.match(r"`?(\w+)", found[1])[1]
        if not left.get(name):
            raise SystemExit(f"docs/SCRIPTS.md: {head} shows a line `{name}` that is not read")
        return f"\n| {left[name].pop(0)} |"

    table = re.sub(r"\n\| (`[^|]*|CHANGE) \|", row, table)
    if missing := [name for name, shown in left.items() if shown]:
        raise SystemExit(f"docs/SCRIPTS.md: {head} shows no line {', '.join(missing)}")
    return before + heading + start + line + table + end + behind


def written(text):
    """The text of SCRIPTS.md with each line as the tables have it."""
    text = filled(text, "## Mode node", {name: [f"`{it}`" for it in shown] for name, shown in node_forms().items()})
    forms, ends = world_forms()
    shown = {name: [f"`{form}`{f' {last}' if last else ''}"] for name, (form, last) in forms.items()}
    of_actor = {name for name, it in shown.items() if " ACTOR" in it[0]}
    text = filled(text, "### The keeper's lines", {"CHANGE": ["CHANGE"], **{name: it for name, it in shown.items() if name not in of_actor}})
    text = filled(text, "### The actors' lines", {name: it for name, it in shown.items() if name in of_actor})
    for part, each in ends.items():
        *first, last = [f"`{it}`" for it in each]
        text = re.sub(rf"(?m)^\| {part} \| [^|]* \|$", lambda _: f"| {part} | {', '.join(first)} or {last} |", text)
    early = [*ends["CHANGE"], forms["pin"][0]]
    job = re.search(r"\n\| `job ([A-Z ]+) \.\.`", text)[1].split()
    if [KIND_OF[it] for it in job] != job_form():
        raise SystemExit("docs/SCRIPTS.md: mode batch reads another line `job` than it shows")
    return re.sub(r"(?m)^\| `put TABLE .* \| as in mode world", lambda _: f"| {', '.join(f'`{it}`' for it in early)} | as in mode world", text)
