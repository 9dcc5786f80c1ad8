"""Lines of comments between the lines of a makefile, so many that the program makes an index.

No edit names such a line, and the other lines are read as they would be without it. So the judge leaves
these lines out.
"""

import random
from collections import Counter
from typing import NamedTuple

from tests.lib import reading

LINE = b"#~\n"
# A document of fewer lines gets no index.
FEWEST_LINES = 1024


class Filling(NamedTuple):
    """How many lines stand between those of a makefile, and the seed of their places."""

    count: int
    seed: int

    def filled(self, text):
        """The text with these lines between its own.

        None stands above the first line, after whose line end new lines get theirs, and none below the
        last one, which may be open.
        """
        lines = [raw for _, raw in reading.logical_lines(text)]
        above = Counter(self.places(len(lines)))
        return b"".join(LINE * above[at] + line for at, line in enumerate(lines))

    def places(self, size):
        """The indices of the lines above which these lines stand: all of them, or only some."""
        if size < 2:
            return []
        source = random.Random(self.seed)
        places = source.sample(range(1, size), source.randint(1, size - 1))
        return source.choices(places, k=self.count)


def without_filling(text):
    """The text without such lines."""
    return b"".join(it for it in reading.PHYSICAL_LINE.findall(text) if it != LINE)
