"""An iSCSI target (RFC 7143) before a program that serves. It wants Python alone, and the client beside it.

    wire.py       where the client and its formats come from
    pdus.py       the headers of what is sent and received
    login.py      the login of a session, and what is agreed in it
    units.py      commands to units, and the answers that the target gives by itself
    tasks.py      commands whose data comes in parts
    session.py    a session after its login
    target.py     connections that come, and the command iscsi-target
"""
