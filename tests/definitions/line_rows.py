#!/usr/bin/env python3
"""Random rows for the definitions of lines, cells, units and words.

Reads random short texts by plain programs written from the rules in words (regular expressions and
loops), and prints a file of equations by which the checker computes the definitions of
`crates/mk_lines/specs` on the same texts. Where the file checks, both agree on every text.

    line_rows.py COUNT SEED

COUNT texts are drawn by SEED; one text may be drawn twice. tests/gate/rows.py says which rows the crate keeps.
Other rows are for a copy of the crate.
"""

import random
import re
import sys
from pathlib import Path

# Bytes that mean something to lines, folds or units, the likely ones more than once.
ALPHABET = b"\\\\\\\\$$(){}  \t\n\n\n\r\0#aa"
# Parts that a text is made of besides single bytes, so that folds and references are not rare.
PARTS = [b"\\\n", b"\\\r\n", b" \\\n ", b"\r\n", b"$(", b"${", b"$(a)", b"\\\\\n", b"$\\\n"]
LONGEST = 24

FOLD = re.compile(rb"[ \t]*\\\r?\n[ \t]*(?:\\\r?\n[ \t]*)*")
LINE_END = re.compile(rb"\r?\n\Z")


def physical_lines(text):
    """The text divided after each line feed."""
    return re.findall(rb"[^\n]*\n|[^\n]+", text)


def line_end(line):
    """The bytes of the line end: CR LF, LF or none."""
    match = LINE_END.search(line)
    return match.group() if match else b""


def body(line):
    """The line without its line end."""
    return line[: len(line) - len(line_end(line))]


def is_continued(line):
    """Whether the text before the line end closes with an odd run of backslashes."""
    return len(re.search(rb"\\*\Z", body(line)).group()) % 2 == 1


def logical_lines(text):
    """Physical lines in groups: a line goes on with the next one where it is continued."""
    lines = []
    goes_on = False
    for physical in physical_lines(text):
        if goes_on:
            lines[-1] += physical
        else:
            lines.append(physical)
        goes_on = is_continued(physical)
    return lines


def is_open(line):
    """Whether text put after the last line could become a part of it."""
    return is_continued(line) or (line_end(line) == b"" and line.endswith(b"\r"))


def cells(line):
    """The joined bytes of a logical line, each with the raw bytes that it stands for."""
    text = body(line)
    result = []
    at = 0
    while at < len(text):
        fold = FOLD.match(text, at)
        if fold:
            result.append((b" ", fold.group()))
            at = fold.end()
        else:
            result.append((text[at : at + 1], text[at : at + 1]))
            at += 1
    return result


def has_bad_fold(line):
    """Whether a backslash stands directly before the whole run of some fold."""
    text = body(line)
    return any(text[: fold.start()].endswith(b"\\") for fold in FOLD.finditer(text))


def has_stray(line):
    """Whether there is a NUL, or a CR that is no part of a line end."""
    left = FOLD.sub(b" ", body(line))
    return b"\0" in left or b"\r" in left


def reference_end(text, at):
    """Where the reference that begins at `at` ends, and whether its brackets are level there."""
    opens = text[at + 1 : at + 2]
    closes = {b"(": b")", b"{": b"}"}[opens]
    for end in range(at + 2, len(text) + 1):
        inside = text[at + 1 : end]
        if inside.count(opens) == inside.count(closes):
            return end, True
    return len(text), False


def units(text):
    """The ends of the units of a text, and whether it is closed."""
    ends = []
    closed = True
    at = 0
    while at < len(text):
        byte, after = text[at : at + 1], text[at + 1 : at + 2]
        if byte == b"$" and after in (b"(", b"{") and after:
            at, level = reference_end(text, at)
            closed = closed and level
        elif byte == b"$":
            closed = closed and after != b""
            at = min(at + 2, len(text))
        elif byte == b"\\" and after != b"$" and after:
            at += 2
        else:
            if byte == b"\\" and not after:
                closed = False
            at += 1
        ends.append(at)
    return ends, closed


def ranges(ends):
    """Ranges that follow one another from 0."""
    return list(zip([0] + ends[:-1], ends)) if ends else []


def words(text):
    """The ranges of the maximal runs of units that are not single blanks."""
    result = []
    for start, end in ranges(units(text)[0]):
        if text[start:end] in (b" ", b"\t"):
            continue
        if result and result[-1][1] == start:
            result[-1] = (result[-1][0], end)
        else:
            result.append((start, end))
    return result


def random_text(random_source):
    """A short text of bytes and parts."""
    text = b""
    for _ in range(random_source.randrange(1, 14)):
        if random_source.random() < 0.25:
            text += random_source.choice(PARTS)
        else:
            text += bytes([random_source.choice(ALPHABET)])
    return text[:LONGEST]


def antt_text(text):
    """A text as a term."""
    if not text:
        return "[]"
    escapes = {0: "\\0", 9: "\\t", 10: "\\n", 13: "\\r", 34: '\\"', 92: "\\\\"}
    return 'codes "' + "".join(escapes.get(byte, chr(byte)) for byte in text) + '"'


def antt_list(terms):
    """A list of terms as a term."""
    return " ∷ ".join(terms + ["[]"])


def antt_bool(value):
    return "true" if value else "false"


def antt_ranges(pairs):
    """Ranges as a term."""
    return antt_list([f"span {start} {end}" for start, end in pairs])


def antt_line(line):
    """What is known of one logical line, as a term."""
    joined = b"".join(byte for byte, _ in cells(line))
    ends, closed = units(joined)
    end = {b"": "None", b"\n": "Lf", b"\r\n": "CrLf"}[line_end(line)]
    facts = [is_open(line), has_bad_fold(line), has_stray(line), closed]
    terms = [
        antt_text(line),
        end,
        antt_list([antt_bool(fact) for fact in facts]),
        antt_text(joined),
        antt_list([antt_text(raw) for _, raw in cells(line)]),
        antt_ranges(ranges(ends)),
        antt_ranges(words(joined)),
    ]
    return "Seen " + " ".join(f"({term})" if " " in term else term for term in terms)


HEAD = """-- Random texts and what a plain program reads in them. Made by `tests/definitions/line_rows.py {count} {seed}`.
use Rattle.std.proofs.Common.{{◌≡◌, refl, ℕ, List, [], ◌∷◌, map, Bool, true, false}}
use Rattle.std.specs.Prelude.{{codes}}
use Rattle.mk_lines.specs.PhysicalLines.{{line_end}}
use Rattle.mk_lines.specs.LogicalLines.{{logical_lines, is_open}}
use Rattle.mk_lines.specs.Cells.{{raw_bytes, joined_text, line_cells}}
use Rattle.mk_lines.specs.CellFaults.{{has_bad_fold, has_stray}}
use Rattle.mk_lines.specs.Units.{{is_closed}}
use Rattle.mk_lines.specs.Ranges.{{unit_ranges, word_ranges}}
use Rattle.mk_lines.specs.declared.split.Span.{{Span}}
use Rattle.mk_lines.specs.declared.ends.End.{{End}}
use Rattle.mk_lines.specs.declared.ends.End.TheVariants.{{None, Lf, CrLf}}

-- A logical line: its bytes; its line end; whether it is open, has a bad fold, has a stray byte, and is closed; its joined
-- text; the raw bytes of each cell; the ranges of units and of words in the joined text.
data SeenLine : Type 0 where
  Seen : (bytes : List ℕ) → End → (facts : List Bool) → (joined : List ℕ) → (raws : List (List ℕ)) → (units words : List Span) → SeenLine

abbrev span : (start end : ℕ) → Span
span start end = record {{ start = start; end = end }}

abbrev seen_line : List ℕ → SeenLine
seen_line l =
    let cs = line_cells l in
    let t = joined_text cs in
    Seen l (line_end l) (is_open l ∷ has_bad_fold cs ∷ has_stray cs ∷ is_closed (λ b. b) t ∷ []) t (map raw_bytes cs) (unit_ranges t) (word_ranges t)

abbrev seen : List ℕ → List SeenLine
seen t = map seen_line (logical_lines t)
"""


def print_rows(head, random_text, question, answer_of):
    """Prints a file of equations of random texts, as many as a script's first word says, by the seed of its second."""
    if len(sys.argv) != 3:
        sys.exit(f"usage: {Path(sys.argv[0]).name} COUNT SEED")
    count, seed = int(sys.argv[1]), int(sys.argv[2])
    random_source = random.Random(seed)
    print(head.format(count=count, seed=seed), end="")
    for number in range(count):
        text = random_text(random_source)
        print(f"\nrow_{number} : {question} ({antt_text(text)}) ≡ {answer_of(text)}\nrow_{number} = refl")


def main():
    print_rows(HEAD, random_text, "seen", lambda text: antt_list([antt_line(line) for line in logical_lines(text)]))


if __name__ == "__main__":
    main()
