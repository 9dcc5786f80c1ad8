"""Hostile use: texts of any size that are hard to read, memory that ends, and valgrind.

    pieces.py           texts of many bytes that are never held whole
    scenes.py           a makefile, and the jobs that are run over it
    makefile_shapes.py  hostile makefiles of any size
    script_shapes.py    hostile scripts of any size
    large_shapes.py     every job over them with 4 and with 16 MB, measured
    address_space.py    runs under an address space that grows in steps
    memcheck.py         runs under valgrind
"""
