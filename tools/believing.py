"""Which definitions calls stand on: those of the statement of docs/BELIEVED.md, and those of any call (tools/believed).

tests/gate/believed.py finds them in the contracts and the definitions of the crates.
"""

import sys
import textwrap
from pathlib import Path

sys.path.insert(0, str(Path(__file__).resolve().parent.parent))
# (below the line that says where it is)
from tests.gate.believed import Believed, Place  # noqa: E402

# The law that has all definitions of the statement, and how many lines these may be.
STATEMENT, MOST = "mk_session::calls_are_taken_back", 174
# The most characters of a cell of a table.
WIDEST = 120
# The main calls, lowest first. Each is named by its crate, its type and its name.
CALLS = (
    "mk_script::parse_script",
    "mk_diff::diff",
    "mk_queries::vars",
    "mk_queries::rules",
    "mk_queries::recipes",
    "mk_queries::check",
    "mk_edit::plan",
    "mk_session::Session::apply",
    "mk_session::Session::execute",
    "mk_run::run",
    "mk_run::runs_keep_every_byte",
    STATEMENT,
)


def row(*cells):
    return f"| {' | '.join(map(str, cells))} |"


def head(*cells):
    return [row(*cells), f"|{'---|' * len(cells)}"]


def in_code(names):
    return ", ".join(f"`{it}`" for it in names)


def sums(believed, found):
    """How many files, definitions and lines some definitions are."""
    shares = [*believed.shares(found)]
    return len(shares), sum(len(it.names) for it in shares), sum(it.lines for it in shares)


def calls(believed):
    """How much each main call needs, and all public calls."""
    lines = head("Call", "Files", "Definitions", "Lines")
    lines += [row(f"`{name}`", *sums(believed, believed.of_call(name))) for name in CALLS]
    lines.append(row("all public calls", *sums(believed, believed.of_all())))
    lines.append(row("all that stands in `specs/`", *sums(believed, {*believed.cites})))
    return lines


def definitions(believed, found, shown):
    """The definitions that are found, by their files, lowest first; `shown` says how a file is named."""
    lines = head("File", "Definitions", "Lines")
    for it in believed.shares(found):
        first, *others = textwrap.wrap(in_code(it.names), WIDEST)
        lines.append(row(shown(it.shown), first, it.lines))
        lines += [row("", names, "") for names in others]
    return lines


def types(believed, found):
    """The types of the code that the definitions found speak of, by their sources."""
    groups = {}
    for it in sorted(it for it in found if isinstance(it, Place)):
        source = believed.surface.sources[it.crate][it.module].shown
        groups.setdefault(source, []).append(it.name)
    order = [*believed.surface.crates]
    lines = head("Source", "Types")
    return lines + [row(f"`crates/{it}`", in_code(groups[it])) for it in sorted(groups, key=lambda it: order.index(it.split("/")[0]))]


def statement(believed):
    """The definitions of the statement, with links; ValueError if they are too many."""
    found = believed.of_call(STATEMENT)
    files, names, lines = sums(believed, found)
    if lines > MOST:
        raise ValueError(f"the definitions of {STATEMENT} have {lines} lines, and may have {MOST}")

    def link(name):
        return f"[`{name[len('crates/') :]}`](../{name})"

    return [*definitions(believed, found, link), row("together", names, lines)]


def parts(top):
    """The parts of docs/BELIEVED.md by their names."""
    return {"statement": statement(Believed(top))}
