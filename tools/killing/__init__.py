"""A program that stores, killed again and again under load.

    talking.py        connections that ask for anything until they end, and keep each byte that came
    losing.py         which writes to a file were not synced, and what a power cut may leave of it
    following.py      the entries that a life added to the journals, beside the plain replay and the replies
    conversations.py  the same of a life in which a record was full: each conversation beside the entries of its nexus
    lives.py          units that live on through kills: each life is served, loaded, killed and judged
"""
