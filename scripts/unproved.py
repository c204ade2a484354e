"""Builds the tests of a crate with no proof, as `rt try --test` compiles them, into a program that can be run by itself; or,
with --main, the crate's own program, as `rt try` compiles it.

usage: python3 scripts/unproved.py CRATE PROGRAM [--main]

`rt try` compiles the tests, runs them and keeps nothing. So it is run from a copy of the toolchain's folder, of links, in
which the compiler's last step, clang, is a script that keeps what it was given. That is then compiled and linked as the
toolchain does for proved tests.
"""

import os
import shutil
import subprocess
import sys

# In the place of clang: keeps the module of the tests, which alone is to have the sanitizer, and ends the try.
KEEPS = """#!/bin/sh
case " $* " in
*" -fsanitize=address "*) cp module.bc '{module}.part' && mv '{module}.part' '{module}' && exit 1 ;;
*) exec '{clang}' "$@" ;;
esac
"""

# The words that the toolchain gives clang for a module, but for its sanitizer.
FLAGS = """--target=x86_64-unknown-linux-gnu -march=x86-64 -mllvm -no-trap-after-noreturn -ffunction-sections -fdata-sections
-mllvm -trap-unreachable -mllvm -no-x86-call-frame-opt -mllvm -disable-machine-licm -mllvm -disable-postra-machine-licm
-mllvm -sink-common-insts=false --no-default-config -no-canonical-prefixes -fno-crash-diagnostics -c -x ir -fPIE -O1""".split()


def kit():
    """The toolchain's folder, which `rt doc` names."""
    return os.path.dirname(subprocess.run(["rt", "doc"], capture_output=True, text=True, check=True).stdout.strip())


def linked(real, folder, own):
    """Makes the folder, with a link to each thing of the real one but for its own."""
    os.makedirs(folder)
    for name in os.listdir(real):
        if name not in own:
            os.symlink(f"{real}/{name}", f"{folder}/{name}")


def copy_of_kit(folder, clang):
    """A copy of the toolchain's folder in which the prover, which a try asks for a hint alone, says nothing, and in which this
    script stands in the place of clang."""
    real = kit()
    linked(real, folder, {"bin", "toolchain"})
    linked(f"{real}/bin", f"{folder}/bin", {"rt", "rtlib.py", "rattle"})
    os.symlink("/bin/true", f"{folder}/bin/rattle")
    for name in ("rt", "rtlib.py"):
        # what they are told of the toolchain is where they lie themselves
        shutil.copy(f"{real}/bin/{name}", f"{folder}/bin/{name}")
    linked(f"{real}/toolchain", f"{folder}/toolchain", {"bin"})
    linked(f"{real}/toolchain/bin", f"{folder}/toolchain/bin", {"clang"})
    with open(f"{folder}/toolchain/bin/clang", "w", encoding="utf-8") as it:
        it.write(clang)
    os.chmod(f"{folder}/toolchain/bin/clang", 0o755)


def keep_module(crate, room, words):
    """Has in the room the module that `rt try` with these words makes of the crate's folder: its path, or what was said where
    it does not compile."""
    module = f"{room}/module.bc"
    shutil.rmtree(room, ignore_errors=True)
    copy_of_kit(f"{room}/kit", KEEPS.format(module=module, clang=f"{kit()}/toolchain/bin/clang"))
    tried = subprocess.run([f"{room}/kit/bin/rt", "try", *words], cwd=crate, capture_output=True, text=True, errors="replace")
    return (module, "") if os.path.exists(module) else (None, tried.stdout + tried.stderr)


def build(crate, program, words=("--test", "--steps", "1")):
    """Builds the tests of the crate's folder into the program, and returns what was said where they do not compile. Other words
    for `rt try` build what it runs with them."""
    real, room = kit(), f"{program}.made"
    module, said = keep_module(crate, room, words)
    if not module:
        return said
    toolchain = f"{real}/toolchain"
    commands = [
        [f"{toolchain}/bin/clang", f"--sysroot={toolchain}", *FLAGS, module, "-o", f"{room}/module.o"],
        [f"{real}/bin/rattle-link", "--target", "x86_64-unknown-linux-gnu", "--toolchain", toolchain, "-o", program,
         f"{room}/module.o", f"{real}/c/libos_c.a", f"{real}/c/liblibc_c.a"],
    ]
    for words in commands:
        ran = subprocess.run(words, capture_output=True, text=True, errors="replace")
        if ran.returncode:
            return ran.stdout + ran.stderr or f"{words[0]} ended with {ran.returncode}"
    return ""


if __name__ == "__main__":
    is_main = sys.argv[3:] == ["--main"]
    sys.exit(build(*map(os.path.abspath, sys.argv[1:3]), ["--steps", "1"] if is_main else ["--test", "--steps", "1"]) or 0)
