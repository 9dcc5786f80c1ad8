"""What builds the program, where another program stands for rt: tools/build and tools/try."""

from tests.lib.buildings import BUILT, CRATES, PROGRAM, BuildingCase

# rt ci says one thing of the crates, and leaves what it builds of mkedit.
CI = """
test "$*" = ci && test "$(ls crates | tr '\\n' ' ')" = "low mkedit " && test ! -e crates/mkedit/must-fail || exit 99
cat {names}/said >&2
mkdir -p crates/mkedit/out && cp {names}/program crates/mkedit/out/mkedit
test -e {names}/kept && test ! -e crates/mkedit/src/again || : >crates/mkedit/out/mkedit.o
exit $(cat {names}/status)
"""
# Of a static library rt ci proves it, and the toolchain builds it then over the libraries that rt ci has built.
CI_OF_LIBRARY = """
test "$*" = ci && test "$(ls crates | tr '\\n' ' ')" = "api low " || exit 99
cat {names}/said >&2
mkdir -p crates/low/out/rlib/low.rlib
exit $(cat {names}/status)
"""
RATTLE = """#!/bin/sh
case "$*" in *"--extern low=/"*"/low.rlib"*) ;; *) exit 98 ;; esac
while test "$1" != -o; do shift; done
echo made >"$2"
"""
# rt try runs the program in a folder of its own, and removes it.
TRY = """
test "$1 $2 $3" = "try -- vars" || exit 99
mkdir -p "$TMPDIR/own" && cp {names}/program "$TMPDIR/own/program"
cat {names}/said >&2
test "$(cat {names}/status)" != 0 || "$TMPDIR/own/program" "$4"
rm -r "$TMPDIR/own"
"""
PROVED = "fn low::a: proved\nrt: low proved\nrt: mkedit is kept: an earlier run proved the same\n2 passed, 0 failed\n"
REFUSED = "rt: low proved\nA.antt:1:1: error: two types differ\nfn mkedit::a: not proved\nrt: mkedit NOT PROVED\n"
LINES = "building mkedit: what rt says goes to {log}\nlow proved, 1 of 2\nmkedit is kept, 2 of 2\n".format(
    log="crates/mkedit/out/build.log"
)
TRIED = "crates/mkedit/out/tried/mkedit"


class Building(BuildingCase):
    def test_make_proves_and_links_once(self):
        self.rt(CI, PROVED)
        got = self.run_words("make")
        self.assertTrue(got.stdout.startswith(f"{LINES}built {BUILT} in N s\n{PROGRAM} is copied".encode()), got)
        self.assertEqual((self.top / "crates/mkedit/out/build.log").read_text(), PROVED)
        self.assertNotIn(b"building", self.run_words("make").stdout)

    def test_a_program_that_is_kept_without_its_object_file_is_proved_again(self):
        self.rt(CI, PROVED)
        (self.names / "kept").touch()
        self.assertEqual(self.run_words("tools/build", "mkedit").status, 0)
        self.assertTrue((self.top / f"{BUILT}.o").exists())
        self.assertEqual((self.top / "crates/mkedit/out/build.log").read_text(), 2 * PROVED)

    def test_a_crate_that_is_refused_is_told_with_its_errors_and_the_log(self):
        self.rt(CI, REFUSED, 3)
        (self.top / BUILT).unlink()
        shown = "".join(f"{it}\n" for it in REFUSED.splitlines()[1:])
        shown += "build: rt ci ended with 3; all that it said is in crates/mkedit/out/build.log\n"
        lines = "".join(LINES.splitlines(keepends=True)[:2])
        self.assert_ran(lines, shown, 3, "tools/build", "mkedit")
        self.assertEqual(self.run_words("make").status, 2)
        self.assertFalse((self.top / BUILT).exists() or (self.top / PROGRAM).exists())

    def test_a_static_library_is_built_once_it_is_proved(self):
        self.rt(CI_OF_LIBRARY, "rt: low proved\nrt: api proved\n")
        (self.top / "crates.txt").write_text(CRATES + "api staticlib: low memchr\n")
        (self.top / "crates/api/src").mkdir(parents=True)
        (self.names.parent / "bin").mkdir()
        (self.names.parent / "bin/rattle").write_text(RATTLE)
        (self.names.parent / "bin/rattle").chmod(0o755)
        lines = "building api: what rt says goes to crates/api/out/build.log\nlow proved, 1 of 2\napi proved, 2 of 2\n"
        self.assert_ran(f"{lines}built crates/api/out/libapi.a in N s\n", "", 0, "tools/build", "api")
        self.assertEqual((self.top / "crates/api/out/libapi.a").read_text(), "made\n")

    def test_the_program_that_rt_tries_is_kept(self):
        self.rt(TRY, "")
        begin = f"building {TRIED} without proofs, with checks while it runs: a minute or so\n"
        self.assert_ran(f"{begin}built {TRIED} in N s\n", "", 0, "tools/try", TRIED)
        self.assertEqual([it.name for it in (self.top / TRIED).parent.iterdir()], ["mkedit"])
        self.assertEqual(self.run_words(TRIED, "--version").stdout, b"mkedit 1\n")

    def test_a_program_that_is_not_tried_is_told_with_what_rt_says(self):
        self.rt(TRY, "error: no such name\n", 1)
        got = self.run_words("tools/try", TRIED)
        told = b"try: rt try did not run the program. It said:\nerror: no such name\n"
        self.assertEqual((got.stderr, got.status), (told, 1))
        self.assertEqual([*(self.top / TRIED).parent.iterdir()], [])
