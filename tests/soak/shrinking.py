"""A smaller case that is still wrong: without lines, commands and bytes that do not matter."""

import re

MOST_TRIES = 4000


class Shrinking:
    """Tries smaller cases, as long as it may."""

    def __init__(self, is_wrong):
        self.is_wrong = is_wrong
        self.tries = 0

    def shrunk(self, case):
        """The smallest case found that is still wrong."""
        before = None
        while case != before and self.tries < MOST_TRIES:
            before = case
            case = self.with_plain_options(case)
            for cut in (lines, single):
                for field in ("makefile", "script"):
                    case = self.with_less(case, field, cut)
        return case

    def still(self, case):
        self.tries += 1
        return self.tries <= MOST_TRIES and self.is_wrong(case)

    def with_plain_options(self, case):
        for options in ({"goes_on": False, "depth": 100}, {"goes_on": False}, {"depth": 100}):
            plain = case._replace(**options)
            if plain != case and self.still(plain):
                return plain
        return case

    def with_less(self, case, field, cut):
        """The case without parts of a field, first without many parts at once, then without fewer."""
        size = len(cut(getattr(case, field)))
        while size:
            at, parts = 0, cut(getattr(case, field))
            while at < len(parts):
                fewer = parts[:at] + parts[at + size :]
                smaller = case._replace(**{field: b"".join(fewer)})
                if self.still(smaller):
                    case, parts = smaller, fewer
                else:
                    at += size
            size //= 2
        return case


def lines(text):
    return re.findall(rb"[^\n]*\n|[^\n]+", text)


def single(text):
    return [text[at : at + 1] for at in range(len(text))]


def shrunk(case, is_wrong):
    """A smaller case of which is_wrong still holds, as it does of this one."""
    return Shrinking(is_wrong).shrunk(case)
