"""Where the program is, and how the helpers are called."""

import os
import shutil
import sys

TOOLS = os.path.dirname(os.path.dirname(os.path.realpath(__file__)))


def is_installed():
    """Whether the helpers stand where ./install puts them, and not in the repository."""
    return not os.path.isdir(os.path.join(TOOLS, os.pardir, "crates"))


def helper(name):
    """What a user types to call a helper."""
    return f"ranksql-{name}" if is_installed() else f"tools/{name}"


def find_program(name="ranksql"):
    """The built program: what RANKSQL or RANKSQL_ASK names, that of the repository, the one installed beside the helpers, or one
    on the PATH. None where there is none."""
    named = os.environ.get(name.upper())
    if named:
        return shutil.which(named)
    if not is_installed():
        built = os.path.join(TOOLS, os.pardir, "crates", name, "out", name)
        return os.path.normpath(built) if os.access(built, os.X_OK) else None
    beside = os.path.normpath(os.path.join(TOOLS, os.pardir, os.pardir, "bin", name))
    return beside if os.access(beside, os.X_OK) else shutil.which(name)


def no_program(name="ranksql"):
    """What to do where no program is found."""
    if is_installed():
        return f"there is no program {name}: install it again, or let {name.upper()} name it"
    return f"there is no program yet: ./{name} builds it, or let {name.upper()} name one"


def leave(text, status):
    """Ends with a line on standard error."""
    print(text, file=sys.stderr)
    sys.exit(status)
