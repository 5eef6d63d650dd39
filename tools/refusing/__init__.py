"""Runs of the program in which one allocation is refused.

    preloaded.py  the environment of such a run
    replaying.py  a worked trace that is replayed, and the generated one: how they may end where memory is refused once
    serving.py    a connection that is served the commands of a worked trace, likewise, and a session over the standard
                  streams
"""
