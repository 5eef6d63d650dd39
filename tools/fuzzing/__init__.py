"""Inputs that differ from right ones in one place, or in two, and the replies to them by the plain replay.

    fields.py     where the fields of CDBs, parameter lists, headers and items stand, and what values to try
    bases.py      requests as they should be, of each command
    changes.py    the changes of a request, of a header and of the end of a trace
    traces.py     traces that have many changed requests
"""
