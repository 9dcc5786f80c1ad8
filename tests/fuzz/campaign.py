"""A run of afl-fuzz over the target, and what it says of itself."""

import os
import shutil
import subprocess

from tests.lib.checks import SECONDS

from . import corpus, seeds

# A longer input is not tried: the judge would take long over it.
LONGEST = 1000
# A run that takes so many thousandths of a second hangs.
PATIENCE = 1000
SETTINGS = {
    "AFL_NO_UI": "1",
    "AFL_TRY_AFFINITY": "1",
    "AFL_SKIP_CPUFREQ": "1",
    "AFL_I_DONT_CARE_ABOUT_MISSING_CRASHES": "1",
}


class Campaign:
    """A folder in which afl-fuzz works over a program."""

    def __init__(self, folder, program):
        self.folder = folder
        self.program = program
        self.out = folder / "out"

    def write_inputs(self):
        """Writes what afl-fuzz begins with, into a new folder."""
        shutil.rmtree(self.folder, ignore_errors=True)
        self.folder.mkdir(parents=True)
        (self.folder / "seeds").mkdir()
        inputs = {*seeds.inputs(), *corpus.inputs()}
        for number, data in enumerate(sorted(inputs)):
            (self.folder / "seeds" / f"{number:04}").write_bytes(data)
        (self.folder / "words").write_text(seeds.dictionary())

    def environment(self):
        return {**os.environ, **SETTINGS}

    def run(self, minutes, seed):
        """Has afl-fuzz work for some minutes. An OSError says why it did not."""
        self.write_inputs()
        words = ["afl-fuzz", "-i", "seeds", "-o", "out", "-x", "words", "-s", str(seed)]
        words += ["-V", str(round(60 * minutes)), "-t", str(PATIENCE), "-G", str(LONGEST)]
        log = self.folder / "log"
        with open(log, "wb") as out:
            how = {"stdin": subprocess.DEVNULL, "stdout": out, "stderr": subprocess.STDOUT}
            how.update(cwd=self.folder, env=self.environment())
            status = subprocess.run([*words, "--", str(self.program)], **how).returncode
        if status or not (self.out / "default/fuzzer_stats").is_file():
            said = log.read_text(errors="replace")[-2000:]
            raise OSError(f"afl-fuzz ended with {status}: {said}")

    def found(self, kind):
        """The inputs in one of its folders: `queue`, `crashes` or `hangs`."""
        files = sorted((self.out / "default" / kind).glob("id:*"))
        return [it.read_bytes() for it in files]

    def statistics(self):
        """What afl-fuzz counted, by its own names."""
        lines = (self.out / "default/fuzzer_stats").read_text().splitlines()
        pairs = (it.partition(":") for it in lines)
        return {name.strip(): value.strip() for name, _, value in pairs}

    def ends_ill(self, data):
        """How the program ends over an input that makes it crash or hang, else nothing."""
        try:
            ran = subprocess.run([self.program], input=data, capture_output=True, timeout=SECONDS)
        except subprocess.TimeoutExpired:
            return "no end"
        said = ran.stderr.decode(errors="replace").strip()
        return f"signal {-ran.returncode} {said}" if ran.returncode < 0 else ""

    def made_small(self, data):
        """An input that crashes, made small by afl-tmin where it can."""
        given, made = self.folder / "large", self.folder / "small"
        given.write_bytes(data)
        made.unlink(missing_ok=True)
        words = ["afl-tmin", "-i", given, "-o", made, "-t", str(PATIENCE), "--", self.program]
        how = {"stdout": subprocess.DEVNULL, "stderr": subprocess.STDOUT, "env": self.environment()}
        subprocess.run([str(it) for it in words], check=False, **how)
        return made.read_bytes() if made.is_file() else data
