"""Whether a program that scripts/tests/image-test runs beside the one of ./mvo is built: the gate
proves and builds it, as `rt run` does in its crate."""
import os

from running import TOP


def below(crate, named):
    """A crate and all that it stands on."""
    return {crate}.union(*(below(it, named) for it in named[crate] if it in named))


def program_of(crate):
    """The program of a crate; None where it isn't built, or a source has changed since."""
    program = os.path.join(TOP, "crates", crate, "out", crate)
    if not os.path.exists(program):
        return None
    with open(os.path.join(TOP, "crates.txt"), encoding="utf-8") as file:
        lines = [it.partition(":") for it in file if it[0].islower()]
    named = {name: others.split() for name, _, others in lines}
    since = os.path.getmtime(program)
    for name in below(crate, named):
        for part in ("src", "specs", "proofs"):
            for folder, _, files in os.walk(os.path.join(TOP, "crates", name, part)):
                if any(os.path.getmtime(os.path.join(folder, it)) > since for it in files):
                    return None
    return program
