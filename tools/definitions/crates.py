"""The crates that a crates.txt names."""


def crate_names(text):
    """The crates in the text's order, which is lowest first."""
    lines = [line.split("#")[0].strip() for line in text.splitlines()]
    return [line.partition(":")[0].split()[0] for line in lines if line]
