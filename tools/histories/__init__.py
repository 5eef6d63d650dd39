"""The history that served units went through, played again.

    talking.py    connections that ask for anything at the same time, and keep what they were replied
    following.py  the trace of an interleaving, from the entries of the units and the requests of the connections
    judging.py    whether the replies, the entries and the report are those of that trace
"""
