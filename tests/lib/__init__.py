"""What several tests share.

    checks.py        the program, a run of it and what that gave, and a tally of checks
    rooms.py         a folder in which a test runs the program, and a unittest case that has one
    buildings.py     a room with a copy of what builds the program, and a unittest case that has one
    notes.py         standard error where there are notes
    tables.py        cases in the tables of tests/cases
    reading.py       a makefile read by Python, and the texts of the queries
    documents.py     what the documents say of refusals, and the displays of the manual pages
    terminals.py     a terminal with a user at its other side
    transcripts.py   shell sessions that a document shows
"""
