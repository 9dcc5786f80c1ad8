"""GNU make as the judge of edits: what it knows of a makefile before and after, beside what is expected.

    generator.py   makefiles and edits drawn at random
    database.py    make's data base of a makefile
    values.py      what make has to know of variables
    expected.py    what make has to know of a makefile
    stated.py      an edit's stated change
    groups.py      where make is known to read otherwise
    verdicts.py    what is found of a makefile, and of an edit of it
    cases.py       what is judged, and the counts
"""
