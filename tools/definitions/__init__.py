"""Definitions and public clauses of the crates, read as text: what each names, and where that stands.

The files, from the bottom up:

    crates.py    the crates of crates.txt
    names.py     the names in a term that nothing in it binds
    imports.py   what the `use` lines of a file bring in
    items.py     a file, and the definitions, types and clauses in it
    specs.py     the definitions of a file of specs/
    code.py      the types of a file of src/, and the clauses of its functions
    tree.py      all crates: what a name stands for, and what is reached from some clauses
    telling.py   what is printed of that
"""
