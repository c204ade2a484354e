#!/usr/bin/env python3
"""Lists the public functions of the libraries that nobody calls at the types of a program. Such a caller meets what is required,
and has the types that the bounds ask for. It is one of the crates of uses; a program of the gate; a library, where the function and its
type have no type parameters; or a library whose own functions with type parameters are all called so.

A call is a name before a bracket: a method's after its type, or after a dot. Where two types have a method of that name, the crate
names the type; in a crate of uses the very function does, or calls one whose head does. A law takes nothing and gives nothing, and
what writes a value calls its `fmt`: these are left out.

usage: uses.py [--all]      --all lists all that the crates of uses do not call
"""
import re, sys
from functools import lru_cache

from sources import crates, impls, programs, public_api, rust_item, source_files, uses

USES, PROGRAMS = uses(), programs()
CALL = re.compile(r"(?:(\w+)(?:::<[^()]*?>)?::|(\.)|(?<![\w:]))(\w+)(?:::<[^()]*?>)?\(")
TYPE = re.compile(r"\b[A-Z]\w*")


def libraries():
    return [it for it in crates() if it not in PROGRAMS | USES]


@lru_cache(None)
def public_functions():
    """Those of the libraries, but for laws and `fmt`."""
    found = [it for crate in libraries() for it in public_api(crate)[1]]
    return [it for it in found if it.name != "fmt" and (it.owner or "->" in it.head or not re.search(r"\(\)\s*$", it.head))]


@lru_cache(None)
def types_by_name():
    """The types that the public functions of a name give, and those whose methods they are."""
    given, owners = {}, {}
    for it in public_functions():
        given.setdefault(it.name, set()).update(TYPE.findall(it.head.partition("->")[2].replace("Self", it.owner or "")))
        owners.setdefault(it.name, set()).add(it.owner)
    return given, owners


def is_generic(function):
    """Whether it, or its type, has a parameter that is no lifetime; a trait has its `Self`."""
    owner = rust_item(function.crate, function.owner) if function.owner else None
    of_owner = owner is not None and re.search(r"pub trait |pub (?:struct|enum) \w+<(?:'\w+, )*\w", owner.text)
    return bool(of_owner or re.search(r"fn \w+<(?:'\w+, )*\w|: &?impl ", function.head))


def bodies(crate):
    """The functions of a crate: of each its name, and what it says without comments."""
    text = "\n".join(re.sub(r"(?m)^\s*//.*$", "", it) for it in source_files(crate).values())
    starts = [it.start() for it in re.finditer(r"(?m)^ *(?:pub(?:\([^)]*\))? )?(?:const )?fn ", text)]
    parts = [text[start:end] for start, end in zip(starts, starts[1:] + [len(text)])]
    return [(re.search(r"fn (\w+)", it)[1], it) for it in parts]


@lru_cache(None)
def calls(crate):
    """What a crate calls, each by its type and its name; a function alone has no type. A trait's are what is written for it."""
    found, (given, owners), all_bodies = set(), types_by_name(), bodies(crate)
    heads = {name: set(TYPE.findall(text.partition("{")[0])) for name, text in all_bodies}
    of_crate = set() if crate in USES else set(TYPE.findall("\n".join(source_files(crate).values())))
    for name, text in all_bodies:
        said = CALL.findall(text.partition(name)[2])
        known = of_crate.union(TYPE.findall(text), *(heads.get(it, set()) | given.get(it, set()) for _, _, it in said))
        for before, dot, called in said:
            if dot:
                kinds = owners.get(called, set())
                found |= {(kind, called) for kind in kinds if len(kinds) == 1 or kind in known}
            else:
                found.add((before if before[:1].isupper() else None, called))
    for file, text in source_files(crate).items():
        for start, end, head, _ in impls(crate, file):
            written = re.findall(r"\bfn (\w+)", "\n".join(text.split("\n")[start:end + 1]))
            found |= {(kind, it) for kind in re.findall(r"(\w+)(?:<.*>)? for ", head) for it in written}
    return found


def called_by(callers):
    """The public functions that these crates call, but for their own."""
    return {it for it in public_functions() for crate in callers if crate != it.crate and (it.owner, it.name) in calls(crate)}


def met_by_programs():
    """Those that are called at the types of a program."""
    met = called_by(PROGRAMS | USES) | {it for it in called_by(libraries()) if not is_generic(it)}
    while True:
        whole = [crate for crate in libraries() if all(it in met for it in public_functions() if it.crate == crate and is_generic(it))]
        more = called_by(whole) - met
        if not more:
            return met
        met |= more


def main():
    own, functions = called_by(USES), public_functions()
    print(f"the crates of uses call {len(own)} of {len(functions)} public functions")
    missing = [it for it in functions if it not in own]
    if "--all" not in sys.argv[1:]:
        met = met_by_programs()
        print(f"others call {len(met - own)} more at the types of a program")
        missing = [it for it in missing if it not in met]
    for it in missing:
        print(f"{it.crate}: {it.path}")


main()
