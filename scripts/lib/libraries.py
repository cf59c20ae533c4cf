"""The libraries that `rt ci` has built, for checks of the crates above them.

`rt ci` builds each library from nothing, and leaves it without the sum of what it was made from, by
which a check knows that it needn't build it again: statements of a library fit only the libraries
that these were made over. Where all are those of one run, they fit one another, so the sums are
written here, as the toolchain makes them. Where it can't be asked for them, none are written, and a
check builds the libraries itself.
"""
import functools
import importlib
import os
import shutil
import sys


def crates_of(top):
    """The crates of a folder as the toolchain has them; none where it can't be asked."""
    command = shutil.which("rt")
    if command is None:
        return []
    sys.path.append(os.path.dirname(os.path.realpath(command)))
    try:
        return importlib.import_module("rtlib").crates_below(top)
    except (ImportError, AttributeError, TypeError, SystemExit):
        return []
    finally:
        sys.path.pop()


def take(top):
    """Has the checks below a folder take the libraries that lie there. Where one has its sum, they are
    a session's own, and stay as they are: the toolchain builds anew what isn't of these files."""
    prefix = f"{os.path.realpath(top)}/"
    found = [it for it in crates_of(top) if it.folder.startswith(prefix)]
    found = [it for it in found if os.path.isdir(f"{it.folder}/out/rlib")]
    if any(os.path.exists(sum_of(it)) for it in found):
        return
    for crate in found:
        crate.stamp = functools.cache(crate.stamp)
        with open(sum_of(crate), "w", encoding="utf-8") as to:
            to.write(crate.stamp())


def sum_of(crate):
    return f"{crate.folder}/out/rlib/stamp"
