#!/usr/bin/env python3
"""A first look without the wait: builds the program without its proofs, in a few minutes, and runs it with these words in the caller's folder.

    SURGE_FIRST_LOOK=1 ./surge WORDS..

It says at each run, on standard error, that the program is not proved. It stands beside the proved one and never takes its place.

`rt try` compiles a program from its sources before any proof, and runs it with checks in a folder of its own. Here it is given a toolchain
whose compiler hands over the module that it would compile; that module is compiled for speed, and linked as the toolchain links a program.
"""

import os
import shutil
import subprocess
import sys
import tempfile
import time

TOP = os.path.dirname(os.path.dirname(os.path.realpath(__file__)))
OUT = f"{TOP}/crates/surge/out"
BINARY = f"{OUT}/first_look"
TARGET = "x86_64-unknown-linux-gnu"
# What the module has for `rt try` alone: the checks whose failures proofs rule out.
CHECKS = ('call void @"rattle-llvm-checks::', "call void @llvm.trap()")


def is_newest():
    """Returns whether the program is there and no source is newer."""
    try:
        built = os.stat(BINARY).st_mtime_ns
    except OSError:
        return False
    for at, folders, names in os.walk(f"{TOP}/crates"):
        folders[:] = [it for it in folders if it not in ("out", "must-fail", "specs", "proofs")]
        if any(os.stat(f"{at}/{it}").st_mtime_ns > built for it in names):
            return False
    return os.stat(f"{TOP}/crates.txt").st_mtime_ns <= built


def links(folder, to, but):
    """Makes a folder of links to all that another holds, but what is named."""
    os.makedirs(to)
    for name in os.listdir(folder):
        if name not in but:
            os.symlink(f"{folder}/{name}", f"{to}/{name}")


def kit_with_other_compiler(kit, room):
    """Makes a toolchain in the folder room whose compiler puts the module that it is to compile there, and returns its rt."""
    links(kit, f"{room}/kit", but=("bin", "toolchain"))
    links(f"{kit}/bin", f"{room}/kit/bin", but=("rt", "rtlib.py"))
    for name in ("rt", "rtlib.py"):
        shutil.copy(f"{kit}/bin/{name}", f"{room}/kit/bin/{name}")
    links(f"{kit}/toolchain", f"{room}/kit/toolchain", but=("bin",))
    links(f"{kit}/toolchain/bin", f"{room}/kit/toolchain/bin", but=("clang",))
    clang = f"{room}/kit/toolchain/bin/clang"
    with open(clang, "w", encoding="utf-8") as it:
        it.write(f'#!/bin/sh\ncase " $* " in *fsanitize*) cp module.bc "{room}/module.bc"; exit 1 ;; esac\nexec "{kit}/toolchain/bin/clang" "$@"\n')
    os.chmod(clang, 0o755)
    return f"{room}/kit/bin/rt"


def program_of(kit, room, name, more=None):
    """Compiles and links the module in the folder room, with more code as text of the same kind, and returns the program."""
    clang = [f"{kit}/toolchain/bin/clang", f"--target={TARGET}", "--no-default-config", "-no-canonical-prefixes", "-fintegrated-cc1", "-x", "ir"]
    run([*clang, f"{room}/module.bc", "-S", "-emit-llvm", "-Xclang", "-disable-llvm-passes", "-o", f"{room}/module.ll"])
    with open(f"{room}/module.ll", encoding="utf-8", errors="surrogateescape") as lines, open(f"{room}/plain.ll", "w", encoding="utf-8", errors="surrogateescape") as to:
        to.writelines(it.replace("sanitize_address", "") for it in lines if not any(check in it for check in CHECKS))
    if more:
        with open(f"{room}/more.ll", "w", encoding="utf-8") as to:
            to.write(more)
    parts = ["plain", *(["more"] if more else [])]
    for part in parts:
        run([*clang, "-O2", "-fPIE", "-ffunction-sections", "-fdata-sections", f"--sysroot={kit}/toolchain", "-c", f"{room}/{part}.ll", "-o", f"{room}/{part}.o"])
    linker = [f"{kit}/bin/rattle-link", "--target", TARGET, "--toolchain", f"{kit}/toolchain", "-o", f"{room}/{name}"]
    run([*linker, *(f"{room}/{part}.o" for part in parts), f"{kit}/c/libos_c.a", f"{kit}/c/liblibc_c.a"])
    return f"{room}/{name}"


def run(words):
    """Runs a command, and ends with what it said where it fails."""
    ran = subprocess.run(words, stdin=subprocess.DEVNULL, stdout=subprocess.PIPE, stderr=subprocess.STDOUT, errors="replace", check=False)
    if ran.returncode:
        sys.exit(f"{ran.stdout[-4000:]}\nsurge: {os.path.basename(words[0])} ended with {ran.returncode}, so there is no first look")


def build():
    found = shutil.which("rt")
    if not found:
        sys.exit("surge: it is built by Rattle's toolchain, whose command rt is not in the path")
    kit = os.path.dirname(os.path.dirname(os.path.realpath(found)))
    print("surge: building a first look, without proofs: some three minutes", file=sys.stderr, flush=True)
    begun = time.time()
    with tempfile.TemporaryDirectory(prefix="surge-first-look-") as room:
        rt = kit_with_other_compiler(kit, room)
        # (its compiler fails as soon as it has the module, and so does this)
        tried = subprocess.run([rt, "try"], cwd=f"{TOP}/crates/surge", stdin=subprocess.DEVNULL, stdout=subprocess.PIPE, stderr=subprocess.STDOUT, errors="replace", check=False)
        if not os.path.isfile(f"{room}/module.bc"):
            sys.exit(f"{tried.stdout[-4000:]}\nsurge: the sources were not compiled, so there is no first look")
        os.makedirs(OUT, exist_ok=True)
        shutil.copy(program_of(kit, room, "first_look"), f"{BINARY}.new")
    os.utime(f"{BINARY}.new", (begun, begun))
    os.replace(f"{BINARY}.new", BINARY)


def main(words):
    if not is_newest():
        build()
    print("surge: a first look: this program is not proved", file=sys.stderr, flush=True)
    os.execv(BINARY, [BINARY, *words])


if __name__ == "__main__":
    main(sys.argv[1:])
