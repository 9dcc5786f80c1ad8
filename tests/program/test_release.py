"""Releases: what tools/dist and tools/deb pack of the built program, and that Debian installs and removes it.

They pack a program that has the C library in it, as tools/link makes it. Where the tested program is
another one, there is no release to test.
"""

import hashlib
import os
import re
import shutil
import stat
import subprocess
import sys
import tarfile

from tests import TOP
from tests.lib.checks import SECONDS, Program
from tests.lib.rooms import EDITED, RoomCase
from tests.program.test_installation import PLACES

# Where each file of the repository stands in the archive, below its folder; None is the program.
PYTHON, BUILT = TOP / "clients/python", TOP / "crates/mkedit_c/out/lib"
ARCHIVE = {
    **PLACES,
    **{f"python/{it}": f"clients/python/{it}" for it in ("README.md", "pyproject.toml", "mkedit/py.typed")},
    **{f"python/mkedit/{it.name}": f"clients/python/mkedit/{it.name}" for it in (PYTHON / "mkedit").glob("*.py")},
    "README.md": "README.md",
    "CHANGELOG.md": "CHANGELOG.md",
    "docs/GUIDE.md": "docs/GUIDE.md",
    "docs/EDITS.md": "docs/EDITS.md",
    "docs/COOKBOOK.md": "docs/COOKBOOK.md",
    "docs/LANGUAGE.md": "docs/LANGUAGE.md",
}
# Where the library for C stands there, if `make lib` has built it; the file for pkg-config is made of another.
if (BUILT / "libmkedit.a").exists():
    ARCHIVE |= {f"lib/{it.name}": f"crates/mkedit_c/out/lib/{it.name}" for it in BUILT.iterdir() if it.name != "libmkedit.so"}
    ARCHIVE |= {"include/mkedit.h": "include/mkedit.h", "lib/pkgconfig/mkedit.pc": "packaging/mkedit.pc.in"}
# What Debian installs: the package of the program, that for Python, and those of the library.
MODULES, LIBRARIES = "usr/lib/python3/dist-packages", "usr/lib/x86_64-linux-gnu"
OF_PYTHON = {
    *(it.replace("python", MODULES, 1) for it in ARCHIVE if it.startswith("python/mkedit/")),
    *(f"usr/share/doc/python3-mkedit/{it}" for it in ("changelog.gz", "changelog.Debian.gz", "copyright", "README.md")),
}
INSTALLED = {
    "usr/bin/mkedit",
    "usr/share/man/man1/mkedit.1.gz",
    "usr/share/man/man5/mkedit-script.5.gz",
    "usr/share/bash-completion/completions/mkedit",
    "usr/share/zsh/vendor-completions/_mkedit",
    "usr/share/fish/vendor_completions.d/mkedit.fish",
    *(f"usr/share/doc/mkedit/{it}" for it in ("changelog.gz", "changelog.Debian.gz", "copyright", "README.md")),
    *(f"usr/share/doc/mkedit/docs/{it}.md" for it in ("GUIDE", "EDITS", "COOKBOOK", "LANGUAGE")),
    "usr/share/lintian/overrides/mkedit",
}
OF_LIBRARY = set()
if (BUILT / "libmkedit.so.0").exists():
    OF_LIBRARY |= {f"{LIBRARIES}/{it}" for it in ("libmkedit.a", "libmkedit.so", "libmkedit.so.0", "pkgconfig/mkedit.pc")}
    OF_LIBRARY.add("usr/include/mkedit.h")
    for it in ("libmkedit0", "libmkedit-dev"):
        OF_LIBRARY |= {f"usr/share/doc/{it}/{name}" for name in ("changelog.gz", "changelog.Debian.gz", "copyright")}
PACKAGES = ["python3-mkedit", "mkedit", *(["libmkedit-dev", "libmkedit0"] if OF_LIBRARY else [])]
# What lintian finds where nobody has said who asks for the upload, and which licence it has.
FOR_AN_UPLOAD = {
    "bogus-mail-host",
    "bogus-mail-host-in-debian-changelog",
    "copyright-without-copyright-notice",
    "initial-upload-closes-no-bugs",
}
FOUND = re.compile(r"^[EW]: [\w-]+: ([\w-]+)", re.M)
# What a program names that does not have the C library in it, and the type of the part that names it.
LOADER, INTERPRETER = b"/ld-linux", b"\3\0\0\0"
TIME = 1_000_000_000


class Releases(RoomCase):
    def setUp(self):
        super().setUp()
        self.out = self.room.folder / "out"
        if LOADER in self.program.path.read_bytes():
            self.skipTest("the program has not the C library in it: tools/link makes one that has")

    def pack(self, tool, program, folder, time=TIME, maintainer=""):
        """Runs tools/dist or tools/deb."""
        words = [sys.executable, "-B", f"tools/{tool}", program, folder]
        environment = {**os.environ, "SOURCE_DATE_EPOCH": str(time), "MAINTAINER": maintainer}
        return subprocess.run(words, cwd=TOP, env=environment, capture_output=True, timeout=SECONDS)

    def packed(self, tool, folder="out"):
        """The archive or the package that is made of the tested program in a folder of the room."""
        ran = self.pack(tool, self.program.path, self.room.folder / folder)
        self.assertEqual((ran.returncode, ran.stderr), (0, b""))
        return next((self.room.folder / folder).glob("mkedit_*.deb" if tool == "deb" else "*.tar.gz"))

    def test_two_releases_of_the_same_files_have_the_same_bytes(self):
        self.room.copy_program()
        for tool in ("dist", "deb"):
            first = self.packed(tool, "first").parent
            ran = self.pack(tool, self.room.program.path, self.out)
            self.assertEqual((ran.returncode, ran.stderr), (0, b""))
            for it in first.iterdir():
                self.assertTrue(it.read_bytes() == (self.out / it.name).read_bytes(), f"two {it.name} have other bytes")

    def test_the_archive_has_these_files_and_no_others(self):
        path = self.packed("dist")
        folder = path.name[: -len(".tar.gz")]
        self.assertRegex(folder, r"^mkedit-\d+\.\d+\.\d+-x86_64-linux$")
        with tarfile.open(path) as archive:
            members = archive.getmembers()
            files = {it.name: archive.extractfile(it).read() for it in members if it.isfile()}
        wanted = {f"{folder}/{it}": self.program.path if name is None else TOP / name for it, name in ARCHIVE.items()}
        self.assertEqual({*files}, {*wanted})
        for name, source in wanted.items():
            content = source.read_bytes()
            if name.endswith(".pc"):
                content = content.replace(b"@LIBDIR@", b"/usr/local/lib").replace(b"@INCLUDEDIR@", b"/usr/local/include")
            self.assertTrue(files[name] == content, f"{name} has other bytes")
        self.assertEqual([it.name for it in members], sorted(it.name for it in members))
        self.assertEqual({(it.uid, it.gid, it.uname, it.gname) for it in members}, {(0, 0, "root", "root")})
        self.assertEqual({it.mtime for it in members}, {TIME})
        modes = {it.name: it.mode for it in members}
        may_be_run = {it for it, mode in modes.items() if mode == 0o755 and it in files}
        self.assertEqual(may_be_run, {f"{folder}/bin/mkedit"})
        self.assertLessEqual({*modes.values()}, {0o644, 0o755})

    def test_the_checksum_is_that_of_the_archive(self):
        path = self.packed("dist")
        told = (path.parent / f"{path.name}.sha256").read_text()
        self.assertEqual(told, f"{hashlib.sha256(path.read_bytes()).hexdigest()}  {path.name}\n")
        self.assertEqual({it.name for it in self.out.iterdir()}, {path.name, f"{path.name}.sha256"})

    def test_a_program_out_of_the_archive_runs(self):
        with tarfile.open(self.packed("dist")) as archive:
            archive.extractall(self.out)
        self.room.program = Program(next(self.out.glob("*/bin/mkedit")))
        self.assert_run(EDITED, "edit", "script", "Makefile")

    def test_the_package_for_python_out_of_the_archive_edits(self):
        with tarfile.open(self.packed("dist")) as archive:
            archive.extractall(self.out)
        [top] = self.out.glob("mkedit-*/")
        for library in ("", str(top / "lib/libmkedit.so.0")):
            self.assert_edits(top / "bin", top / "python", library)

    def assert_edits(self, programs, modules, library=""):
        """The package for Python in a folder edits by the program in another one, or by a library."""
        words = [sys.executable, "-B", "-c", "import mkedit; print(mkedit.edit('CC = gcc\\n', 'set CC clang\\n'))"]
        path = f"{programs}:{os.environ['PATH']}"
        environment = {"PATH": path, "PYTHONPATH": str(modules), "MKEDIT_LIBRARY": library}
        ran = subprocess.run(words, env=environment, capture_output=True, timeout=SECONDS)
        self.assertEqual((ran.stdout, ran.stderr), (b"b'CC = clang\\n'\n", b""))

    def test_make_packs_all(self):
        self.room.copy_program()
        shutil.copy(self.program.path, self.room.folder / "built")
        # (an empty object file is none for tools/link, and for make there is no program to be built)
        self.room.write("built.o", b"")
        given = {"PROGRAM": self.room.program.path, "BUILT": self.room.folder / "built", "DIST": self.out}
        words = ["make", "dist", "deb", *(f"{name}={value}" for name, value in given.items())]
        kept = {it: os.environ[it] for it in ("PATH", "HOME", "TMPDIR") if it in os.environ}
        ran = subprocess.run(words, cwd=TOP, env=kept, capture_output=True, text=True, timeout=SECONDS)
        self.assertEqual((ran.returncode, ran.stderr), (0, ""))
        suffixes = sorted(it.name.rpartition(".")[2] for it in self.out.iterdir())
        self.assertEqual(suffixes, [*("deb" for _ in PACKAGES), "gz", "sha256"])

    def test_a_program_that_runs_on_some_machines_alone_is_refused(self):
        code = bytearray(self.program.path.read_bytes())
        at = int.from_bytes(code[32:40], "little")
        code[at : at + 4] = INTERPRETER
        others = (code, b"loads the C library"), (b"#!/bin/sh\n", b"no program"), (code[:60], b"no program")
        for content, why in others:
            self.room.write("other", bytes(content), 0o755)
            for tool in ("dist", "deb"):
                ran = self.pack(tool, self.room.folder / "other", self.out)
                self.assertEqual((ran.returncode, ran.stdout), (1, b""))
                self.assertIn(why, ran.stderr)
                self.assertFalse(self.out.exists())

    def dpkg(self, root, *words):
        """Runs dpkg over a root folder of its own; it wants to be root, or to believe so."""
        first = ["fakeroot"] if os.geteuid() else []
        if not all(map(shutil.which, ["dpkg", *first])):
            self.skipTest("there is no dpkg, or no fakeroot for a user who is not root")
        environment = {**os.environ, "PATH": f"{os.environ['PATH']}:/usr/sbin:/sbin", "LC_ALL": "C"}
        # (some machines leave out documents and manual pages, and say so in the settings of dpkg)
        # (Python is not below the root folder)
        how = ["--path-include=/*", "--force-script-chrootless", "--force-depends"]
        given = [*first, "dpkg", f"--root={root}", f"--log={root}/log", *how, *words]
        ran = subprocess.run(given, env=environment, capture_output=True, text=True, timeout=SECONDS)
        self.assertEqual(ran.returncode, 0, ran.stderr)

    def files_below(self, root):
        """The files below a root folder, but for those of dpkg."""
        names = (str(it.relative_to(root)) for it in root.rglob("*") if not it.is_dir())
        return {it for it in names if not it.startswith("var/lib/dpkg/") and it != "log"}

    def test_debian_installs_the_packages_and_removes_them(self):
        root = self.room.folder / "root"
        for name in ("info", "updates", "triggers"):
            (root / "var/lib/dpkg" / name).mkdir(parents=True)
        (root / "var/lib/dpkg/status").touch()
        self.dpkg(root, "--install", *self.packed("deb").parent.iterdir())
        self.assertEqual(self.files_below(root), INSTALLED | OF_PYTHON | OF_LIBRARY)
        for name in INSTALLED | OF_PYTHON | OF_LIBRARY:
            mode = stat.S_IMODE((root / name).stat().st_mode)
            self.assertEqual(oct(mode), oct(0o755 if name == "usr/bin/mkedit" else 0o644), name)
        self.assert_shows_manuals(root)
        self.room.program = Program(root / "usr/bin/mkedit")
        self.assert_run(EDITED, "edit", "script", "Makefile")
        for library in ["", *([str(root / LIBRARIES / "libmkedit.so")] if OF_LIBRARY else [])]:
            self.assert_edits(root / "usr/bin", root / MODULES, library)
        self.dpkg(root, "--remove", *PACKAGES)
        self.assertEqual(self.files_below(root), set())

    def test_a_package_names_the_maintainer_who_is_given(self):
        if not shutil.which("dpkg-deb"):
            self.skipTest("dpkg-deb is not there")
        self.assertEqual(self.pack("deb", self.program.path, self.out, maintainer="A <a@b.org>").returncode, 0)
        for it in self.out.iterdir():
            words = ["dpkg-deb", "--field", it, "Package", "Maintainer"]
            ran = subprocess.run(words, capture_output=True, text=True, timeout=SECONDS)
            self.assertEqual(ran.stdout, f"Package: {it.name.partition('_')[0]}\nMaintainer: A <a@b.org>\n")

    def assert_shows_manuals(self, root):
        """man has to find both pages below a root folder."""
        if not shutil.which("man"):
            return
        for words in (["mkedit"], ["5", "mkedit-script"]):
            how = {"env": {**os.environ, "LC_ALL": "C.UTF-8", "MANPAGER": "cat"}, "timeout": SECONDS}
            words = ["man", "-M", root / "usr/share/man", *words]
            ran = subprocess.run(words, capture_output=True, text=True, **how)
            self.assertEqual(ran.returncode, 0, ran.stderr)
            self.assertIn("mkedit", ran.stdout)

    def test_lintian_finds_what_an_upload_needs_and_no_more(self):
        if not shutil.which("lintian"):
            self.skipTest("lintian is not there")
        words = ["lintian", "--allow-root", *self.packed("deb").parent.iterdir()]
        ran = subprocess.run(words, capture_output=True, text=True, timeout=SECONDS)
        self.assertLessEqual({*FOUND.findall(ran.stdout)}, FOR_AN_UPLOAD)

    def test_a_release_needs_a_program_and_a_folder(self):
        for tool in ("dist", "deb"):
            words = [sys.executable, "-B", f"tools/{tool}", self.program.path]
            ran = subprocess.run(words, cwd=TOP, capture_output=True, timeout=SECONDS)
            self.assertEqual(ran.returncode, 2)
            self.assertEqual(self.pack(tool, "absent", self.out).returncode, 1)
            self.assertEqual(self.pack(tool, self.program.path, self.out, "yesterday").returncode, 1)
