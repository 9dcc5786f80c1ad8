"""The test of a change: `python3 -m tests.gate` is `make check`, with `--quick` it is `make test`.

    lint        what a reader of one file does not see: documents, antt and names, believed
    test_lint   tests of the lint
    rows        the stored files of rows
    listed      the crates of crates.txt
    believed    what one has to believe, for `make texts`: surface

lint, test_lint and rows are commands too, as `python3 -m tests.gate.lint`.
"""
