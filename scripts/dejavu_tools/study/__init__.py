"""A study of selections: how many tests each of four choices runs again after a change, and which it misses.

`mutants` makes changes of C texts, `choices` are the choices, `measure` runs them on a program, `figures` are what was
found and the file of it, `table` writes tables of them, and `plots` draws them. Only `measure` stands on pycparser.
"""
