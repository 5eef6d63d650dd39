"""The formats of copymgr: what the client and the tools read and write alike.

    senses.py         senses, their names, and what refuses
    reservations.py   the actions and types of persistent reservations
    cdbs.py           command descriptor blocks
    lists.py          parameter lists
    rod_token.py      tokens
    frames.py         headers, items, requests and replies
    returned.py       the data that commands return
    addresses.py      HOST:PORT
    words.py          lines as words, and numbers
    values.py         numbers, data, ranges and descriptors as text
    replies.py        replies as text
    command_line.py   how a tool reads its words, and how it ends
"""
