"""The library for C, where `make lib` has built it and there is a C compiler: the examples, and what bad callers do."""

import os
import shlex
import shutil
import subprocess
import unittest

from tests import TOP
from tests.lib.checks import SECONDS
from tests.lib.rooms import RoomCase

LIBRARY = TOP / "crates/mkedit_c/out/lib"
COMPILER = shlex.split(os.environ.get("CC", "")) or ["cc"]
OPTIONS = ("-std=gnu11", "-O1", "-g", "-Wall", "-Wextra", "-Werror", "-pthread", f"-I{TOP / 'include'}")
WRAPPED = [f"-Wl,--wrap={it}" for it in ("malloc", "realloc", "free")]
MAKEFILES = (b"", b"CC = gcc # c\n", b"CC=gcc\nCC=gcc\n", b"all: a\n\tcc \\\n\t-o\xff\n", b"ifdef A\n" * 257)
SCRIPTS = (b"", b"set CC clang\n", b"all append CC x\nundo\n", b"set X 1\n", b"begin\nset CC y\n", b"no\n", b"\0\n")


def is_there():
    return shutil.which(COMPILER[0]) and (LIBRARY / "libmkedit.a").exists()


@unittest.skipUnless(is_there(), "make lib has built no library, or there is no C compiler")
class Library(RoomCase):
    def compiled(self, source, *options, compiler=(*COMPILER, *OPTIONS)):
        """A program, linked with the library."""
        path = self.room.folder / source.stem
        words = [*compiler, "-o", path, source, *options]
        ran = subprocess.run(words, capture_output=True, text=True, timeout=SECONDS)
        self.assertEqual((ran.returncode, ran.stderr), (0, ""))
        return path

    def run_words(self, *words, **environment):
        how = {"cwd": self.room.folder, "env": {**os.environ, **environment}, "timeout": 2 * SECONDS}
        return subprocess.run(words, capture_output=True, **how)

    def assert_example(self, example, **environment):
        """The example answers as the program does."""
        for number, (makefile, script) in enumerate((it, that) for it in MAKEFILES for that in SCRIPTS):
            with self.subTest(makefile=makefile, script=script):
                self.room.write("M", makefile)
                self.room.write("S", script)
                ran, wanted = self.run_words(example, "S", "M", **environment), self.room.run("edit", "S", "M")
                self.assertEqual((ran.stdout, ran.returncode), (wanted.stdout, min(wanted.status, 2)))
                self.assertEqual(ran.stderr == wanted.stderr, wanted.status < 2)

    def test_the_example_does_what_the_program_does(self):
        source = TOP / "examples/c/edit.c"
        self.assert_example(self.compiled(source, LIBRARY / "libmkedit.a"))
        if (LIBRARY / "libmkedit.so").exists():
            self.assert_example(self.compiled(source, f"-L{LIBRARY}", "-lmkedit"), LD_LIBRARY_PATH=str(LIBRARY))

    @unittest.skipUnless(shutil.which("rustc"), "there is no rustc")
    def test_the_example_in_rust_does_so_too(self):
        how = {"compiler": ("rustc", "--edition", "2021")}
        example = self.compiled(TOP / "examples/rust/edit.rs", "-L", LIBRARY, "-l", "mkedit", **how)
        self.assert_example(example, LD_LIBRARY_PATH=str(LIBRARY))

    def test_bad_calls_are_answered_and_write_nothing(self):
        program = self.compiled(TOP / "tests/program/library.c", *WRAPPED, LIBRARY / "libmkedit.a")
        ran = self.run_words(program)
        self.assertEqual((ran.returncode, ran.stderr), (0, b""))

    def test_the_shared_library_exports_the_calls_of_its_header(self):
        if not (LIBRARY / "libmkedit.so").exists() or not shutil.which("nm"):
            self.skipTest("there is no shared library, or no nm")
        ran = self.run_words("nm", "-D", "--defined-only", LIBRARY / "libmkedit.so")
        found = {it.split()[-1] for it in ran.stdout.decode().splitlines()}
        self.assertEqual(found, {f"mkedit_{it}" for it in ("version", "run_into", "diff_into", "list_into")})
