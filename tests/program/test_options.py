"""The words of the command line: what they ask for, or how they are refused.

A row has what has to come of its command lines, which are written as for a shell, with `|` between them: of words
that are taken the status and the first lines of both outputs, as docs/EDITS.md and the manual page say, and of others
the message; they have status 2 and no output. Standard input is the makefile TEXT, which is no script.
"""

import shlex

from tests.lib.rooms import ANSWERS, EDITED, FILES, QUERIED, TEXT, Room, RoomCase

MORE = {"-k": b"set CC clang\n", "depth": b"set CC a\nset CC b\nundo\nundo\n"}
UNDO = "1: refused 16 NothingToUndo"
# The first line of each query of QUERIED in JSON: all that it tells of stands in one branch.
IN_JSON = '{"file":"queried","line":1,"depth":0,"kind":"branch","first":1,"text":"ifdef A"}'

# The status, the first lines of both outputs, and the command lines.
TAKEN = [
    (0, "CC = clang # c", None, """
        edit script Makefile | edit -- script Makefile | edit script -- Makefile | edit -- -k Makefile | edit ./-k
        edit script | edit script - | edit -kd5 script - | edit script -k Makefile | edit script --keep-going --depth=5
        edit -e 'set CC clang' | edit -e 'set CC clang' - | edit '-eset CC clang' Makefile | edit - -ke 'set CC clang'
        edit --expression 'set CC clang' -- Makefile | edit '--expression=set CC clang'
        edit -e 'set CC cc' -e '' -e '# a' -e 'set CC clang' | edit -e 'set CC cc\\nset CC clang' Makefile
        edit -d 1 script | edit -d1 script | edit -d=1 script | edit --depth 10000 script | edit --depth=00100 script
        edit --report text script | edit script --report=text --notes Makefile
        edit --notes script | edit --color always script Makefile | edit --color=never script | edit --color auto script"""),
    (0, "--- a/Makefile", None, """
        edit --diff script Makefile | edit --diff --color never script Makefile | edit --color=auto script Makefile --diff
        edit --diff -e 'set CC clang' Makefile queried | edit --diff script Makefile -"""),
    (0, "--- a/-", None, "edit --diff script | edit script - --diff | edit --diff script - Makefile"),
    (0, "\x1b[1m--- a/Makefile\x1b[0m", None, "edit --diff --color always script Makefile | edit --color=always script Makefile --diff"),
    (1, None, UNDO, "edit undo Makefile | edit -e undo | edit -e undo -e redo Makefile | edit -d 5 undo"),
    (1, "CC = gcc # c", UNDO, "edit -k undo Makefile | edit --keep-going undo | edit -ke undo -e redo"),
    (1, None, "4: refused 16 NothingToUndo", "edit -d 1 depth Makefile | edit --depth=1 depth"),
    (2, None, "mkedit: script line 1 is not a command", """
        edit - Makefile | edit Makefile script | edit - -- Makefile | edit -i - Makefile | edit --diff - depth undo"""),
    (3, None, "mkedit: cannot open absent", """
        edit absent Makefile | edit script absent | edit -i -e undo absent | edit -- absent | vars absent | get CC absent
        rules --target all absent | session absent | session --json absent"""),
    (0, "1:0: CC = gcc", None, "vars | vars - | vars Makefile | vars --name CC | vars --name=CC - | vars --notes | vars --"),
    (0, "-:1:0: CC = gcc", None, "vars - Makefile | vars --name CC - - Makefile"),
    (0, "Makefile:1:0: CC = gcc", None, "vars Makefile queried --name CC | vars Makefile -"),
    (0, "queried:3:1: all: main.o [1]", None, "rules Makefile queried | rules --target=all Makefile queried"),
    (0, None, None, "vars --name CXX | vars --name= | rules --target main.o queried | recipes queried --target=al | check"),
    (0, "gcc", None, "get CC | get CC - | get --nth 1 CC | get CC --nth=1 queried | get --nth 01 CC | get --notes CC"),
    (0, "Makefile:gcc", None, "get CC Makefile queried | get --nth 1 CC Makefile -"),
    (0, '{"file":"-","name":"CC","value":"gcc"}', None, "get --json CC | get CC,CC --json - | get --nth=1 --json CC,CC"),
    (1, None, "refused 4 NoSuch", "get X | get --nth 2 CC | get --nth=0 CC | get --nth 4294967295 CC | get -- -x | get X -"),
    (0, "4 NoSuch", None, "explain 4 | explain NoSuch | explain nosuch | explain NOSUCH | explain -- 4"),
    (0, "20 NoMemory", None, "explain 20 | explain NoMemory"),
    (0, "21 Misread", None, "explain 21 | explain misread"),
    (0, "mkedit session 1", None, """
        session Makefile | session -- Makefile | session ./- --new | session -d 1 Makefile | session --depth=10000 a --new
        session --protocol Makefile | session --json Makefile | session --new absent | session --color always Makefile
        session --color=never Makefile | session Makefile --color auto --json --protocol -d5"""),
]
for query, answer in ANSWERS.items():
    line = answer.decode().split("\n")[0]
    noted = f"{line}: $(call it)" if query == "check" else line
    TAKEN += [(0, line, None, f"{query} queried"), (0, noted, None, f"{query} --notes queried")]
    TAKEN.append((0, IN_JSON, None, f"{query} --json queried | {query} queried - --json --notes"))

# A message, what stands in it for {}, and the command lines that it refuses.
REFUSED = {
    "unexpected argument '{}' found": {
        "--frobnicate": "edit --frobnicate script | vars --frobnicate | session Makefile --frobnicate=1 | --frobnicate",
        "-x": "edit -x script Makefile | edit -kx script | get -x | explain -x | session -x | vars -x | -x edit",
        "-V": "edit -V script | session -V Makefile",
        "-k": "vars -k Makefile | vars --name -k | rules -k | get -k CC | explain -k 4 | session -k a | -k edit script",
        "-o": "rules -o out Makefile | session -oout Makefile",
        "--name": "rules --name all | get --name CC | edit --name CC script | session --name CC a | --name CC vars",
        "--target": "vars --target all | explain --target a 4 | check --target=all | caveats --target all | get --target a",
        "--json": "edit --json script | explain --json 4",
        "--report": "vars --report json Makefile | get --report=json CC | session --report json Makefile",
        "--nth": "vars --nth 1 | edit --nth 1 script | session --nth=1 Makefile",
        "--color": "vars --color always Makefile | get --color=never CC",
        "--depth": "check --depth 5 Makefile | get --depth=5 CC",
        "--notes": "session --notes Makefile | explain --notes 4",
        "-5": "edit -d -5 script | session -d -5 Makefile | explain -5 | get --nth -5 CC",
        "5": "explain 4 5 | session Makefile 5",
    },
    "the argument '{}' cannot be used multiple times": {
        "--keep-going": "edit -k -k script | edit -kk script | edit -k --keep-going script",
        "--in-place": "edit -i -i script Makefile | edit -ii script Makefile",
        "--diff": "edit --diff --diff script Makefile",
        "--output <OUT>": "edit -o a -o b script | edit -oa --output=a script",
        "--depth <DEPTH>": "edit -d 1 -d 2 script | session -d1 --depth=1 Makefile",
        "--backup <SUFFIX>": "edit -i --backup a --backup b script Makefile",
        "--color <WHEN>": "edit --color never --color never script | session --color auto --color auto Makefile",
        "--report <FORM>": "edit --report json --report json script",
        "--name <NAME>": "vars --name CC --name CC Makefile",
        "--target <TARGET>": "rules --target a --target b | recipes --target a --target=a",
        "--nth <N>": "get --nth 1 --nth 1 CC",
        "--json": "vars --json --json | check --json queried --json",
    },
    "a value is required for '{}' but none was supplied": {
        "--depth <DEPTH>": "edit script -d | session Makefile --depth | edit -kd",
        "--output <OUT>": "edit script Makefile -o | edit script --output",
        "--expression <COMMAND>": "edit script Makefile -e | edit --expression",
        "--color <WHEN>": "edit script --color | session Makefile --color",
        "--report <FORM>": "edit script --report",
        "--backup <SUFFIX>": "edit -i script Makefile --backup | edit --backup -i script",
        "--name <NAME>": "vars Makefile --name | vars --name --json",
        "--target <TARGET>": "rules --target | recipes queried --target",
        "--nth <N>": "get CC --nth | get --nth",
    },
    "unexpected value {} found; no more were expected": {
        "'yes' for '--keep-going'": "edit --keep-going=yes script Makefile",
        "'out' for '--diff'": "edit --diff=out script Makefile",
        "'' for '--json'": "vars --json= queried | session --json= Makefile",
    },
    "invalid value '{0}' for '--depth <DEPTH>': {0} is not in 1..=10000": {
        it: f"edit -d {it} absent | edit -d{it} script | session --depth={it} Makefile"
        for it in ("0", "10001", "4294967296", "4294967297")
    },
    "invalid value '{}' for '--depth <DEPTH>': invalid digit found in string": {
        it: f"edit -d '{it}' script | session '--depth={it}' Makefile"
        for it in ("five", "5.", "5,0", "1e3", "0x5", " 5", "5 ", "\u0665")
    },
    "{}": {
        "'mkedit' requires a subcommand but one was not provided": "",
        "unrecognized subcommand 'frobnicate'": "frobnicate | frobnicate edit script Makefile | help frobnicate",
        "the following required arguments were not provided:": "get | get --nth 1 | explain | session | session --new",
        "invalid value '' for '--depth <DEPTH>': cannot parse integer from empty string": "edit -d '' a | session --depth= a",
        "invalid value '99999999999999999999' for '--depth <DEPTH>': number too large to fit in target type": """
            edit -d 99999999999999999999 script | session --depth=99999999999999999999 Makefile""",
        # Below stands what clap takes, and mkedit refuses.
        "invalid value for '--depth <DEPTH>': only decimal digits may stand there": "edit -d +5 script | session --depth=+01 a",
        "invalid value for '--nth <N>': it has to be a number in decimal digits, up to 4294967295": """
            get --nth= CC | get --nth +1 CC | get --nth=-1 CC | get --nth x CC | get --nth 1. CC | get --nth ' 1' CC
            get --nth 4294967296 CC | get --nth 18446744073709551617 CC Makefile | get --nth \u0661 CC""",
        "invalid value for '--color <WHEN>': it is auto, always or never": """
            edit --color Always script | edit --diff --color= script Makefile | edit --color alway -e undo
            session --color=Never Makefile | session --color '' Makefile | session --color - Makefile""",
        "invalid value for '--report <FORM>': it is text or json": """
            edit --report Json script | edit --diff --report= script Makefile | edit --report xml -e undo""",
        "invalid value for '--backup <SUFFIX>': it may neither be empty nor have a '/'": """
            edit -i --backup '' script Makefile | edit -i --backup=a/b script Makefile | edit --backup / -i script""",
        "invalid value for '<REFUSAL>': it is no number from 1 to 21, and no refusal has this name": """
            explain 0 | explain 22 | explain 04 | explain +4 | explain '' | explain No | explain 'NoSuch ' | explain -- -4""",
        "a SCRIPT is required, or '--expression <COMMAND>'": "edit | edit -k | edit --diff | edit -i | edit -o out",
        "SCRIPT and FILE cannot both be standard input, which FILE is where it is '-' or left out": """
            edit - | edit - - | edit -k - | edit -- - - | edit -d 5 --diff -""",
        "the argument '--in-place' cannot be used with '--output <OUT>'": """
            edit -i -o out script Makefile | edit -io out -e undo Makefile""",
        "the argument '--diff' cannot be used with '--in-place'": """
            edit --diff -i script Makefile | edit -i -e undo --diff Makefile queried""",
        "with '--in-place' FILE has to be the name of a file, and neither '-' nor left out": """
            edit -i script | edit -i script - | edit -i script Makefile - | edit -i -e undo | edit --backup a -i -e undo -""",
        "several FILEs may stand beside '--in-place' or '--check', or beside '--diff' without '--output'": """
            edit script Makefile queried | edit script Makefile - | edit -e undo script Makefile | edit script -e undo -
            edit -o out script Makefile queried | edit --diff -o out script Makefile queried | edit -e undo - -""",
        "'--backup <SUFFIX>' may stand beside '--in-place' alone": """
            edit --backup '~' script | edit --diff --backup=a script Makefile | edit -o out --backup a script""",
        "FILE has to be the name of a file, and not '-'": "session - | session --new - | session -- -",
        # Words that mean something else.
        "'set' is a command of a script: 'mkedit edit -e \"set ...\" FILE' runs it": "set CC clang Makefile | set -i CC clang",
        "'unset' is a command of a script: 'mkedit help unset' explains it": "explain unset",
        "'NoSuch' is a refusal: 'mkedit explain NoSuch' explains it": "help NoSuch",
        "'-i' takes no suffix: '-i --backup .bak' keeps the old file": "edit -i.bak script Makefile | edit -k script Makefile -i.bak",
    },
}

# A file, what it holds then, and command lines that print nothing.
WRITTEN = (
    ("Makefile", EDITED.stdout, """
        edit -i script Makefile | edit --in-place script Makefile | edit -ki -e 'set CC clang' Makefile
        edit -o Makefile script Makefile | edit --output=Makefile script | edit -oMakefile -e 'set CC clang'"""),
    ("-", EDITED.stdout, "edit -o - script Makefile | edit --output ./- script | edit -o- -e 'set CC clang'"),
    ("-k", EDITED.stdout, "edit -o-k script | edit --output=-k -e 'set CC clang' Makefile"),
    ("Makefile~", TEXT, "edit -i --backup '~' script Makefile | edit --backup='~' -i script Makefile"),
    ("Makefile-x", TEXT, "edit -i --backup=-x script Makefile"),
    ("queried", QUERIED.replace(b"gcc", b"clang"), "edit -i script Makefile queried | edit -ie 'set CC clang' queried"),
)


class Options(RoomCase):
    def problems(self, line, status, first, written):
        """What is wrong with a run: its status, the first lines of both outputs, and the file that it writes."""
        words = [it.replace("\\n", "\n") for it in shlex.split(line)]
        with Room(self.program) as room:
            for name, content in {**FILES, **MORE}.items():
                room.write(name, content)
            got = room.run(*words, given=TEXT)
            shown = tuple(text.decode().split("\n")[0] if text else None for text in got[:2])
            if (got.status, shown) != (status, first):
                yield f"the run gives {got}"
            yield from room.holds(*written) if written else room.holds("out", None) + room.changed()

    def assert_rows(self, rows):
        """Each command line of a row is a case."""
        for lines, status, first, written in rows:
            for line in lines.strip().replace("\n", "|").split("|"):
                self.assert_cases([(line.strip(), self.problems(line, status, first, written))])

    def test_words_that_are_taken(self):
        self.assert_rows((lines, status, (out, told), None) for status, out, told, lines in TAKEN)

    def test_words_that_are_refused(self):
        rows = ((form.format(it), lines) for form, arguments in REFUSED.items() for it, lines in arguments.items())
        self.assert_rows((lines, 2, (None, f"error: {message}"), None) for message, lines in rows)

    def test_where_a_text_goes(self):
        self.assert_rows((lines, 0, (None, None), (name, text)) for name, text, lines in WRITTEN)

    def test_the_usage_below_an_error_is_that_of_the_command(self):
        for line, usage in (
            ("edit --diff", "mkedit edit [OPTIONS] SCRIPT [FILE]"),
            ("get --nth x CC", "mkedit get [OPTIONS]"),
            ("session -", "mkedit session [OPTIONS]"),
            ("explain 0", "mkedit explain <REFUSAL>"),
        ):
            self.assertIn(f"\n\nUsage: {usage}", self.room.run(*line.split()).stderr.decode())
