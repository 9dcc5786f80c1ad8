"""`make install` and `make uninstall`, into a scratch folder, with the program that is built already."""

import os
import stat
import subprocess

from tests import TOP
from tests.lib.checks import SECONDS, Program
from tests.lib.rooms import EDITED, RoomCase

# Where a file of the repository goes below PREFIX; None is the program.
PLACES = {
    "bin/mkedit": None,
    "share/man/man1/mkedit.1": "docs/mkedit.1",
    "share/man/man5/mkedit-script.5": "docs/mkedit-script.5",
    "share/bash-completion/completions/mkedit": "completions/mkedit.bash",
    "share/zsh/site-functions/_mkedit": "completions/mkedit.zsh",
    "share/fish/vendor_completions.d/mkedit.fish": "completions/mkedit.fish",
}
# What is installed where `make lib` has built the library, and the names of files there that stand for it.
OF_LIBRARY = {
    "include/mkedit.h",
    "lib/libmkedit.a",
    "lib/libmkedit.so",
    "lib/libmkedit.so.0",
    "lib/pkgconfig/mkedit.pc",
}
# Folders of one's own, each with the files that go there.
FOLDERS = {
    "BINDIR": ("mkedit",),
    "MANDIR": ("man1/mkedit.1", "man5/mkedit-script.5"),
    "BASHCOMPDIR": ("mkedit",),
    "ZSHCOMPDIR": ("_mkedit",),
    "FISHCOMPDIR": ("mkedit.fish",),
}


class Installation(RoomCase):
    def setUp(self):
        """Has a folder to install into, and a new copy of the program, so that make builds nothing."""
        super().setUp()
        self.root = self.room.folder / "root"
        self.room.copy_program()

    def make(self, target, **variables):
        """Runs make, which may not fail or build something."""
        kept = ("PATH", "HOME", "TMPDIR", "LC_ALL")
        environment = {it: os.environ[it] for it in kept if it in os.environ}
        given = {"PROGRAM": self.room.program.path, "DESTDIR": self.root, "LIBRARY": "none", **variables}
        words = ["make", target, *(f"{name}={value}" for name, value in given.items())]
        how = {"cwd": TOP, "env": environment, "timeout": SECONDS}
        ran = subprocess.run(words, capture_output=True, text=True, **how)
        self.assertEqual((ran.returncode, ran.stderr), (0, ""), target)
        self.assertNotIn("building", ran.stdout)

    def assert_installed(self, wanted):
        """These files and no others have to be there."""
        found = {str(it.relative_to(self.root)) for it in self.root.rglob("*") if it.is_file()}
        self.assertEqual(found, {*wanted})

    def assert_same(self, name, source):
        """An installed file has to have the bytes of a file of the repository, or of the program."""
        path = self.root / name
        wanted = self.room.program.path if source is None else TOP / source
        self.assertTrue(path.read_bytes() == wanted.read_bytes(), f"{name} has other bytes")
        mode = stat.S_IMODE(path.stat().st_mode)
        self.assertEqual(oct(mode), oct(0o755 if source is None else 0o644), name)

    def test_make_install_puts_each_file_where_it_belongs_and_uninstall_takes_it_away(self):
        self.make("install", PREFIX="/usr")
        wanted = {f"usr/{name}": source for name, source in PLACES.items()}
        self.assert_installed(wanted)
        for name, source in wanted.items():
            self.assert_same(name, source)
        (self.root / "usr/bin/another").touch()
        self.make("uninstall", PREFIX="/usr")
        self.assert_installed({"usr/bin/another"})

    def test_each_folder_of_an_installation_can_be_chosen(self):
        chosen = {name: f"/chosen/{name.lower()} 1" for name in FOLDERS}
        self.make("install", **chosen)
        placed = [(name, file) for name, files in FOLDERS.items() for file in files]
        self.assert_installed(f"chosen/{name.lower()} 1/{file}" for name, file in placed)
        self.make("uninstall", **chosen)
        self.assert_installed(())

    def test_the_library_is_installed_where_it_was_built(self):
        folder = self.room.folder / "lib"
        folder.mkdir()
        for name in ("libmkedit.a", "libmkedit.so.0"):
            (folder / name).write_text(name)
        where = {"LIBRARY": folder, "PREFIX": "/usr", "LIBDIR": "/usr/lib/x"}
        self.make("install", **where)
        wanted = {it.replace("lib/", "lib/x/", 1) if it.startswith("lib/") else it for it in OF_LIBRARY}
        self.assert_installed({f"usr/{it}" for it in {*PLACES, *wanted}})
        self.assertEqual((self.root / "usr/lib/x/libmkedit.so").read_text(), "libmkedit.so.0")
        said = (self.root / "usr/lib/x/pkgconfig/mkedit.pc").read_text()
        self.assertEqual(said.splitlines()[:2], ["libdir=/usr/lib/x", "includedir=/usr/include"])
        self.make("uninstall", **where)
        self.assert_installed(())

    def test_each_file_with_a_version_has_that_of_the_program(self):
        version = self.room.run("--version").stdout.split()[1].decode()
        number = sum(int(it) * unit for it, unit in zip(version.split("."), (10_000, 100, 1)))
        for name, line in {
            "include/mkedit.h": f"#define MKEDIT_VERSION {number} ",
            "crates/mkedit_c/src/lib.rt": f"const VERSION: u32 = {number};",
            "packaging/mkedit.pc.in": f"Version: {version}\n",
            "clients/python/pyproject.toml": f'version = "{version}"\n',
            "clients/python/mkedit/__init__.py": f'__version__ = "{version}"\n',
            "clients/python/mkedit/texts.py": f"VERSION = {number // 100}\n",
        }.items():
            self.assertIn(line, (TOP / name).read_text(), name)

    def test_an_installed_program_runs(self):
        self.make("install", PREFIX="/usr/local")
        self.room.program = Program(self.root / "usr/local/bin/mkedit")
        self.assert_run(EDITED, "edit", "script", "Makefile")
