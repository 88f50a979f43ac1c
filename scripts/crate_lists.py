"""What crates.txt says: each crate and those of the repository that it stands on."""


def crates_of(top, program=None):
    """The crates of a repository, or those that a program is made of, the lowest first, and those that each stands on."""
    below = {}
    with open(f"{top}/crates.txt", encoding="utf-8") as lines:
        for line in lines:
            line = line.split("#")[0].strip()
            if line:
                name, others = line.split(":")
                below[name.split()[0]] = others.split()
    order = []

    def add(name):
        if name not in order:
            for other in below[name]:
                if other in below:
                    add(other)
            order.append(name)

    for name in [program] if program else below:
        add(name)
    return order, {name: [it for it in others if it in below] for name, others in below.items()}
