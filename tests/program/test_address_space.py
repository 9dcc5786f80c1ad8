"""Runs under an address space that grows in steps, which are wide and take seconds.

tests/hostile/address_space.py has the runs, and says what has to come.
"""

from tests.hostile.address_space import PAGE, climbs
from tests.lib.rooms import RoomCase


class AddressSpace(RoomCase):
    def test_too_little_memory_is_told_in_each_step(self):
        for steps in climbs(self.room, 32 * PAGE, 256 * PAGE):
            with self.subTest(f"memory in steps: {steps.row.name}"):
                self.assert_well(steps.problems())
