"""`python -m cbgrid`: runs the program cbgrid, which wheels of a release hold, or the one on the path."""

import os
import shutil
import sys

# The status if there is no program, which the program itself never uses.
NO_PROGRAM = 125


def program() -> "str | None":
    """The program beside this package, or else the first one on the path."""
    beside = os.path.join(os.path.dirname(os.path.abspath(__file__)), "program")
    return beside if os.path.isfile(beside) else shutil.which("cbgrid")


def main() -> int:
    found = program()
    if found is None:
        print("cbgrid: the program isn't in this package: install cbgrid's archive or its package for Debian", file=sys.stderr)
        return NO_PROGRAM
    os.execv(found, ["cbgrid", *sys.argv[1:]])


if __name__ == "__main__":
    sys.exit(main())
