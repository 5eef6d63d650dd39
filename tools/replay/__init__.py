"""A plain replay of traces, written from docs/formats.md, docs/commands.md and docs/model.md.

It shares nothing with the program: it keeps lists and walks over them. The files, from the bottom up:

    senses.py     the refusals, and the other ends of an act or a command
    frames.py     bytes of headers, items, requests and replies
    cdbs.py       CDBs, read and written
    lists.py      parameter lists, read and written
    told.py       the data that commands return
    rod_token.py  the text of a token
    acts.py       what is asked of a unit
    unit.py       a unit: its blocks, tokens, operations and record
    commands.py   each command as a program of acts
    player.py     a whole trace
    requests.py   random requests
    traces.py     random traces
    entries.py    the entries of units' records, and their texts
    written.py    those texts as files of units have them
    recording.py  units whose records go to files
    readback.py   entries read back from their texts
    journals.py   the files of entries that a crash leaves whole
    resuming.py   units that go on with the entries of their journals
    sessions.py   random sessions, which are the commands of one connection
    compared.py   what a program wrote, beside the replies of a player
    serving.py    connections that are served
    storing.py    the same by units that have journals
"""
