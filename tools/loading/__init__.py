"""Load for a program that serves, whose totals are known in the end.

    bounds.py     how many acts a command does at each unit, at least and at most
    tallies.py    what the clients counted, kept where a client that is killed leaves it
    clients.py    a client: commands whose replies it can tell, and commands of all kinds
    hostile.py    connections that do what no client should
    memory.py     what the program has, and what it may need
    counted.py    what came and went at a manager, counted
    results.py    what held, and what did not
"""
