"""The crates of a repository, as crates.txt lists them."""


def names_below(folder):
    """Each crate of the repository, with all that are below it."""
    with open(f"{folder}/crates.txt", encoding="utf-8") as file:
        rows = [line.split("#")[0].split(":") for line in file if ":" in line.split("#")[0]]
    direct = {row[0].split()[0]: row[1].split() for row in rows}
    found = {}

    def below(name):
        if name not in found:
            found[name] = set().union(*({it} | below(it) for it in direct[name] if it in direct))
        return found[name]

    return {name: below(name) for name in direct}
