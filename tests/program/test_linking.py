"""What links the program, and puts its commit into it, where another program stands for rt: tools/link."""

import shutil

from tests.lib.buildings import BUILT, PROGRAM, BuildingCase

# A program in C, and an archive without members, which stands for the toolchain's.
SOURCE = '#include <stdio.h>\nint main(void) { return puts("mkedit 1") < 0; }\n'
NO_MEMBERS = "!<arch>\n"
LOADER = b"/ld-linux"


class Linking(BuildingCase):
    def test_a_program_is_linked_with_the_c_library_in_it(self):
        self.rt("", "")
        (self.names.parent / "c").mkdir()
        for name in ("libos_c.a", "liblibc_c.a"):
            (self.names.parent / "c" / name).write_text(NO_MEMBERS)
        (self.top / "main.c").write_text(SOURCE)
        if not shutil.which("cc") or self.run_words("cc", "-static-pie", "-o", "main", "main.c").status:
            self.skipTest("there is no C compiler, or no static C library")
        self.assert_ran("", "", 0, "cc", "-fPIE", "-c", "-o", f"{BUILT}.o", "main.c")
        self.assert_ran("", "", 0, "cc", "-o", BUILT, f"{BUILT}.o")
        self.assert_ran(f"{PROGRAM} is linked with the C library in it\n", "", 0, "tools/link", BUILT, PROGRAM)
        self.assert_ran("mkedit 1\n", "", 0, PROGRAM)
        if LOADER not in (self.top / BUILT).read_bytes() or LOADER in (self.top / PROGRAM).read_bytes():
            self.fail("the loader is asked for by another program")

    def test_a_program_is_copied_where_it_cannot_be_linked(self):
        (self.top / f"{BUILT}.o").write_text("no object file")
        self.rt("", "")
        got = self.run_words("tools/link", BUILT, PROGRAM)
        self.assertTrue(got.status == 0 and got.stdout.endswith(b": it starts later\n"), got)
        self.assert_ran("mkedit 1\n", "", 0, PROGRAM, "--version")

    def test_a_program_tells_the_commit_of_a_checkout_without_changes(self):
        if not shutil.which("git"):
            self.skipTest("git is not there")
        version = "mkedit 1 (commit not recorded)"
        self.program_tells(version)
        author = ("-c", "user.name=A", "-c", "user.email=a@invalid")
        for words in (("init", "-q"), ("add", "Makefile", "tools"), (*author, "commit", "-q", "-m", "a")):
            self.assertEqual(self.run_words("git", *words).status, 0)
        name = self.run_words("git", "rev-parse", "HEAD").stdout.decode()[:12]
        for change, told in (("", f"mkedit 1 (commit {name})"), ("all:\n", version)):
            (self.top / "Makefile").write_text(change or (self.top / "Makefile").read_text())
            self.assertEqual(self.run_words("tools/link", BUILT, PROGRAM).status, 0)
            self.assert_ran(f"{told}\n", "", 0, PROGRAM, "--version")

    def test_a_program_with_no_place_for_its_commit_or_with_two_stays_as_it_is(self):
        for version in ("mkedit 1", "mkedit 1 (commit not recorded) (commit not recorded)"):
            self.program_tells(version)
            self.assertEqual(self.run_words("tools/link", BUILT, PROGRAM).status, 0)
            self.assert_ran(f"{version}\n", "", 0, PROGRAM, "--version")
