#!/usr/bin/env python3
"""Makes docs/demo.svg, the picture of the README, from what mkedit prints over examples/.

    docs/demo.py [PROGRAM] > docs/demo.svg
"""

import re
import subprocess
import sys
from html import escape
from pathlib import Path

TOP = Path(__file__).resolve().parent.parent
# What is typed, and the words that the program gets for it: a terminal has colours and notes by itself.
COMMANDS = (
    ("mkedit edit --diff -e 'set CC clang' -e 'append CFLAGS -g' config.mk", ("edit", "--diff", "--color", "always", "-e", "set CC clang", "-e", "append CFLAGS -g", "config.mk")),
    ("mkedit edit -i -e 'set PREFX /usr' config.mk", ("edit", "--notes", "-i", "-e", "set PREFX /usr", "config.mk")),
)
LINE_HEIGHT, CHARACTER, MARGIN = 19, 8.43, 16
STYLE = """text { font: 14px ui-monospace, "DejaVu Sans Mono", Menlo, Consolas, monospace; fill: #c9d1d9 }
.c1 { font-weight: bold } .c31 { fill: #ff7b72 } .c32 { fill: #7ee787 } .c36 { fill: #79c0ff } .typed { fill: #ffffff; font-weight: bold }"""
# A code of ECMA-48 for a colour or bold type; 0, or none, ends it.
COLOUR = re.compile(r"\x1b\[0*(\d*)m")


def span(text, kind):
    return f'<tspan class="{kind}">{escape(text)}</tspan>' if kind and text else escape(text)


def painted(line):
    """A line with its colours as SVG: each colour stands up to the next."""
    front, *rest = COLOUR.split(line)
    return escape(front) + "".join(span(text, code and f"c{code}") for code, text in zip(rest[::2], rest[1::2]))


def talk(program):
    """What is typed and what is printed, line by line, with whether it is typed. The second command is refused."""
    for typed, words in COMMANDS:
        yield f"$ {typed}", True
        ran = subprocess.run([program, *words], cwd=TOP / "examples", stdout=subprocess.PIPE, stderr=subprocess.STDOUT, text=True)
        yield from ((it, False) for it in ran.stdout.splitlines())


def picture(program):
    told = list(talk(program))
    lines = [span(text, "typed") if is_typed else painted(text) for text, is_typed in told]
    most = max(len(COLOUR.sub("", text)) for text, _ in told)
    width, height = round(most * CHARACTER + 2 * MARGIN), len(lines) * LINE_HEIGHT + 2 * MARGIN
    rows = (f'<text xml:space="preserve" x="{MARGIN}" y="{MARGIN + (it + 1) * LINE_HEIGHT - 5}">{line}</text>' for it, line in enumerate(lines))
    head = f'<svg xmlns="http://www.w3.org/2000/svg" width="{width}" height="{height}" viewBox="0 0 {width} {height}">'
    title = "<title>mkedit shows what an edit changes as a diff, and refuses one that matches nothing</title>"
    return "\n".join([head, title, f"<style>{STYLE}</style>", '<rect width="100%" height="100%" rx="8" fill="#0d1117"/>', *rows, "</svg>", ""])


if __name__ == "__main__":
    print(picture(sys.argv[1] if len(sys.argv) > 1 else TOP / "crates/mkedit/out/bin/mkedit"), end="")
