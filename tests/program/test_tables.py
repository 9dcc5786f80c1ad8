"""The cases of the tables: runs and queries, with what has to come of each (tests/lib/tables.py)."""

from tests.lib.checks import differences
from tests.lib.notes import reported
from tests.lib.rooms import Room, RoomCase
from tests.lib.tables import cases


class Tables(RoomCase):
    def test_each_case_of_a_table(self):
        names = set()
        for case in cases():
            with self.subTest(case.name):
                self.assertNotIn(case.name, names, "two cases have this name")
                names.add(case.name)
                self.assert_case(case)

    def assert_case(self, case):
        """Runs a case in a room that has its files alone."""
        with Room(self.program) as room:
            for name, content in case.files.items():
                room.write(name, content)
            got = room.run(*case.words)
            if "--notes" in case.words:
                got = got._replace(stderr=reported(got.stderr, "script"))
            self.assert_well(differences(got, case.wanted) + room.changed())
