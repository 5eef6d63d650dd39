"""Traces and replies as text, as docs/trace-text.md says. The files, from the bottom up:

    words.py     lines as words that know their place, and faults with a place
    values.py    numbers, data, ranges, tokens and descriptors as text
    requests.py  requests as words
    traces.py    whole traces as text, and back
    returned.py  the data that commands return, read as values
    replies.py   replies as text
    playing.py   a trace that is played: replies beside the lines that brought them, and acts
    command_line.py  what the tools have in common
"""
