"""Every job over hostile makefiles and scripts of some size, with a small stack.

tests.hostile does the same with sizes up to the limit, and measures. Here the texts are long enough
that a call for each of their lines or brackets would not fit into the stack.
"""

from tests.hostile import makefile_shapes, pieces, script_shapes
from tests.lib.checks import Outcome, small_stack
from tests.lib.rooms import RoomCase

SIZE = 60_000


class HostileShapes(RoomCase):
    def assert_job(self, job):
        """Runs a job over the file `text`."""
        files = ["text"] if job.script is None else ["job", "text"]
        if job.script is not None:
            pieces.write(self.room.folder / "job", job.script)
        wanted = Outcome(pieces.whole(job.out), pieces.whole(job.report), job.status)
        self.assert_run(wanted, *job.words, *files)

    def assert_scenes(self, scenes):
        """Runs every job of some scenes."""
        with small_stack():
            for scene in scenes:
                pieces.write(self.room.folder / "text", scene.makefile)
                for job in scene.jobs:
                    with self.subTest(f"{scene.name}: {job.name}"):
                        self.assert_job(job)

    def test_hostile_makefiles(self):
        self.assert_scenes(makefile_shapes.scenes(SIZE))

    def test_hostile_scripts(self):
        self.assert_scenes(script_shapes.scenes(SIZE))
