"""The program with nothing proved: as one LLVM module, for what is measured or fuzzed before a proof.

`rt try` makes one LLVM module of the program, which traps where a number overflows, a shift is too far,
a value or an address is none, and the like, and hands it to the clang of its toolchain. Here rt lies in
a folder of links to its kit, in which another clang keeps that module and ends.
"""

import os
import shlex
import shutil
import subprocess
from pathlib import Path

TOP = Path(__file__).resolve().parent.parent
# rt and its module say by where they lie which kit is theirs.
COPIED = ("rt", "rtlib.py")
CLANG = "toolchain/bin/clang"
# rt calls clang in the module's folder, once with checks.
OTHER_CLANG = """#!/bin/sh
case " $* " in
*" -fsanitize=address "*)
    cp module.bc MODULE
    exit 1
    ;;
esac
exec CLANG "$@"
"""
TARGET = "x86_64-unknown-linux-gnu"
# How clang is asked to compile the module.
COMPILES = (f"--target={TARGET}", "-fPIE", "-Wno-override-module", "-c", "-x", "ir")


class NotBuilt(Exception):
    """The program was not built; says why."""


def kit():
    """The folder of the toolchain."""
    rt = shutil.which("rt")
    if not rt:
        raise NotBuilt("there is no command rt (README.md, The toolchain)")
    return Path(rt).resolve().parent.parent


def archives():
    """The toolchain's own C code, which the program is linked with."""
    return [kit() / "c" / it for it in ("libos_c.a", "liblibc_c.a")]


def link_all(source, folder, but=()):
    """Makes a folder with a link to each part of another, but for some."""
    folder.mkdir()
    for it in source.iterdir():
        if it.name not in but:
            (folder / it.name).symlink_to(it)


def kit_with_clang(folder, script):
    """Makes a kit of links to the toolchain's, with a shell script in place of its clang. The script has CLANG for that."""
    own = kit()
    link_all(own, folder, ("toolchain",))
    link_all(own / "toolchain", folder / "toolchain", ("bin",))
    link_all(own / "toolchain/bin", folder / "toolchain/bin", ("clang",))
    clang = folder / CLANG
    clang.write_text(script.replace("CLANG", shlex.quote(str(own / CLANG))))
    clang.chmod(0o755)


def other_kit(folder, module):
    """Makes a kit of links to the toolchain's, with an rt of its own, whose clang keeps the module."""
    kit_with_clang(folder, OTHER_CLANG.replace("MODULE", shlex.quote(str(module))))
    (folder / "bin").unlink()
    link_all(kit() / "bin", folder / "bin", COPIED)
    for name in COPIED:
        shutil.copy(kit() / "bin" / name, folder / "bin")


def called(words, folder, **environment):
    """Runs a command, and hands out its status and what it said."""
    how = {"stdin": subprocess.DEVNULL, "stdout": subprocess.PIPE, "stderr": subprocess.STDOUT}
    how["env"] = {**os.environ, **environment}
    ran = subprocess.run([str(it) for it in words], cwd=folder, errors="replace", **how)
    return ran.returncode, ran.stdout


def call(words, folder, **environment):
    """Runs a command that has to succeed."""
    status, said = called(words, folder, **environment)
    if status:
        raise NotBuilt(f"{words[0]} ended with {status}: {said[-2000:]}")


def module_of(folder):
    """Makes the module of the program in an empty folder, and hands out its path."""
    module = folder / "module.bc"
    other_kit(folder / "kit", module)
    _, said = called([folder / "kit/bin/rt", "try"], TOP / "crates/mkedit")
    if not module.is_file():
        raise NotBuilt(f"rt try compiled no module: {said[-2000:]}")
    return module


def compile_module(folder, module, flags):
    """Compiles a module with these flags too, into the object file module.o of the folder."""
    call([kit() / CLANG, *COMPILES, *flags, module, "-o", "module.o"], folder)


def compile_program(folder, flags):
    """Compiles the program with these flags too, into the object file module.o of an empty folder."""
    compile_module(folder, module_of(folder), flags)
