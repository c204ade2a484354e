#!/usr/bin/env python3
"""Makes the library for callers in C: `libtxc_c.a`, which needs malloc, realloc, free and memcpy's kind alone; `libtxc_c.so`; and their
header; and, where Python's headers are there, the extension of its package. It says where they lie.

usage: scripts/library.py [--try] [FOLDER]
  --try    compiles it in some minutes, with no proof; else it is proved first, where it has to be
  FOLDER   where they are put, by default bindings/out, and with --try bindings/out/unproved
"""

import os
import re
import shutil
import subprocess
import sys
import tempfile
import time

import exports
import extension
import run
import unproved
from check import check_words
from extension import compiler

ROOT = os.path.dirname(os.path.dirname(os.path.abspath(__file__)))
CRATE = "txc_c"
# A value of each type that crosses as a number.
ZEROS = {"u8": "0", "u32": "0", "u64": "0", "usize": "0", "bool": "false"}


def told(words, cwd=ROOT):
    """Runs a command, and ends with what it said where it fails."""
    ran = subprocess.run(words, cwd=cwd, stdout=subprocess.PIPE, stderr=subprocess.STDOUT, text=True, errors="replace")
    if ran.returncode:
        sys.exit(f"{ran.stdout[-3000:]}library: {os.path.basename(words[0])} ended with status {ran.returncode}")
    return ran.stdout


# ---- with no proof


def value_of(kind, structs):
    """Some value of a type, in Rattle."""
    array = re.fullmatch(r"\[(\w+); (\w+)\]", kind)
    if array:
        return f"[{value_of(array[1], structs)}; txc_tags::{array[2]}]"
    if kind in ("TxcNode", "TxcSite"):
        return f"{kind}::closed(alloc)"
    if kind in structs:
        return f"{kind} {{ {', '.join(f'{name}: {value_of(it, structs)}' for name, it in structs[kind])} }}"
    return ZEROS[kind]


def caller():
    """A `main` that calls each export, so that a try compiles them."""
    structs, lines = exports.structs(), []
    for name, (words, _) in exports.exports().items():
        given = []
        for field, kind in words:
            one = re.sub(r"^&(mut )?", "", kind)
            many = re.fullmatch(r"\[(\w+)\]", one)
            value = f"[{value_of(many[1], structs)}; 1]" if many else value_of(one, structs) if one != "Global" else "alloc"
            if kind.startswith("&"):
                lines.append(f"    let mut {name}_{field} = {value};")
                given.append(f"&mut {name}_{field}" if kind.startswith("&mut") else f"&{name}_{field}")
            else:
                given.append(value)
        lines.append(f"    let _ = {name}({', '.join(given)});")
    return "\nfn main(rt: HostRuntime) {\n    let alloc = rt.alloc();\n" + "\n".join(lines) + "\n}\n"


def exported(room):
    """Compiles the crate with no proof, as a program that calls each export: its text for LLVM, of which the exports alone can be called."""
    lines = run.crates(CRATE)
    with open(f"{room}/crates.txt", "w", encoding="utf-8") as it:
        it.writelines(line.replace(" staticlib:", ":") for line in lines.values())
    shutil.copy(f"{ROOT}/HANDLES", room)
    for name in lines:
        shutil.copytree(f"{ROOT}/crates/{name}", f"{room}/crates/{name}", ignore=shutil.ignore_patterns("out", "wrong-bodies"))
    source = f"{room}/crates/{CRATE}/src"
    with open(f"{source}/lib.rt", "a", encoding="utf-8") as it:
        it.write(caller())
    os.rename(f"{source}/lib.rt", f"{source}/main.rt")
    module, said = unproved.keep_module(f"{room}/crates/{CRATE}", f"{room}/made", ["--steps", "1"])
    if not module:
        sys.exit(f"{said[-3000:]}library: it does not compile")
    told([*clang(), "-S", "-emit-llvm", "-Xclang", "-disable-llvm-passes", module, "-o", f"{room}/whole.ll"])
    with open(f"{room}/whole.ll", encoding="utf-8") as it:
        text = it.read()
    for name in exports.exports():
        text = re.sub(rf'@"{CRATE}::\w+::{name}"', f"@{name}", text)
        text = text.replace(f"define internal noundef i32 @{name}(", f"define noundef i32 @{name}(")
    with open(f"{room}/exports.ll", "w", encoding="utf-8") as it:
        it.write(text.replace("define i32 @main(", "define internal i32 @called("))
    return f"{room}/exports.ll"


def clang():
    """The toolchain's compiler, for LLVM's texts."""
    return [f"{unproved.kit()}/toolchain/bin/clang", "--no-default-config", "-x", "ir"]


def object_of(text, to, flags=("-O2",)):
    """Compiles such a text into an object."""
    told([*clang(), "--target=x86_64-unknown-linux-gnu", "-march=x86-64", "-ffunction-sections", "-fdata-sections", "-fPIC", *flags, "-c", text,
          "-o", to])
    return to


# ---- proved


def build_static(room):
    """Builds the library over those that `rt ci` left in the room, and proves it once more: `rt ci` builds no static library."""
    print(f"library: lib{CRATE}.a is made, and {CRATE} proved once more for it, in some minutes", file=sys.stderr, flush=True)
    toolchain = f"{unproved.kit()}/toolchain"
    words = ["rattle", "build", *check_words(room, CRATE), "--toolchain", toolchain, "--backend", "llvm", "-o", f"out/lib{CRATE}.a"]
    os.makedirs(f"{room}/crates/{CRATE}/out", exist_ok=True)
    told(words, f"{room}/crates/{CRATE}")


def proved_objects(room):
    """The objects of the proved library, which is proved first where it has to be."""
    archive = f"{ROOT}/crates/{CRATE}/out/lib{CRATE}.a"
    if not run.is_fresh(archive, CRATE):
        run.build(CRATE, f"lib{CRATE}.a", archive, build_static)
    return objects_of(archive, f"{room}/proved")


def objects_of(archive, folder):
    """The objects of an archive."""
    os.makedirs(folder)
    told([f"{unproved.kit()}/toolchain/bin/llvm-ar", "x", archive], folder)
    return sorted(f"{folder}/{it}" for it in os.listdir(folder))


# ---- both


def make(objects, folder, is_shared=True):
    """Makes the archive and, where it is wanted, the shared object of the objects, with the toolchain's calls of malloc, realloc and free."""
    os.makedirs(folder, exist_ok=True)
    archive, shared, header = f"{folder}/lib{CRATE}.a", f"{folder}/lib{CRATE}.so", f"{folder}/txc.h"
    for it in (archive, shared):
        if os.path.exists(it):
            os.remove(it)
    objects = [*objects, *objects_of(f"{unproved.kit()}/c/liblibc_c.a", f"{folder}/kit/libc")]
    # the store names the last error of the system, though in memory it has none
    objects += [it for it in objects_of(f"{unproved.kit()}/c/libos_c.a", f"{folder}/kit/os") if os.path.basename(it).startswith("errno")]
    told([f"{unproved.kit()}/toolchain/bin/llvm-ar", "rcs", archive, *objects])
    shutil.copy(exports.HEADER, header)
    if is_shared and compiler():
        with open(f"{folder}/kit/map", "w", encoding="utf-8") as it:
            it.write("{ global: txc_*; local: *; };\n")
        told([compiler(), "-shared", "-o", shared, *objects, f"-Wl,--version-script={folder}/kit/map", "-Wl,--gc-sections"])
    elif is_shared:
        print("skipped: libtxc_c.so, since there is no C compiler", file=sys.stderr)
    shutil.rmtree(f"{folder}/kit")
    return [it for it in (archive, shared, header) if os.path.exists(it)]


def library(is_try, folder):
    with tempfile.TemporaryDirectory(prefix="library-") as room:
        objects = [object_of(exported(room), f"{room}/{CRATE}.o")] if is_try else proved_objects(room)
        return [*make(objects, folder), *filter(None, [extension.make(folder)])]


def main():
    words = sys.argv[1:]
    is_try = "--try" in words
    given = [it for it in words if it != "--try"]
    folder = os.path.abspath(given[0]) if given else f"{ROOT}/bindings/out" + "/unproved" * is_try
    begun = time.time()
    for file in library(is_try, folder):
        print(os.path.relpath(file) if file.startswith(os.getcwd()) else file)
    print(f"{'tried, and not proved' if is_try else 'proved'}, after {time.time() - begun:.0f} s", file=sys.stderr)


if __name__ == "__main__":
    main()
