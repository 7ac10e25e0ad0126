"""How a helper begins and ends: its streams are UTF-8, and no fault of a file or a stream is a traceback."""

import os
import sys

from .refusal import WRITE, Refusal

INTERRUPTED = 130


def run_command(name, work):
    """Does the work, which gives the exit status, and tells what it can't go on from in one line."""
    for stream, errors in ((sys.stdout, "backslashreplace"), (sys.stderr, "backslashreplace")):
        if stream is not None:
            stream.reconfigure(encoding="utf-8", errors=errors)
    try:
        if sys.stdout is None:
            raise Refusal(WRITE, "standard output is closed")
        status = work()
        sys.stdout.flush()
        return status
    except Refusal as refusal:
        tell(name, str(refusal))
        return refusal.status
    except BrokenPipeError:
        return stop_output()
    except OSError as error:
        tell(name, error.strerror or str(error))
        return stop_output()
    except KeyboardInterrupt:
        stop_output()
        return INTERRUPTED
    except MemoryError:
        tell(name, "there is not enough memory")
        return 1


def tell(name, sentence):
    """A line on standard error, as far as there is one."""
    try:
        print("%s: %s" % (name, sentence), file=sys.stderr, flush=True)
    except (OSError, AttributeError):
        pass


def stop_output():
    """Turns standard output away, so that what is held of it isn't written at the end."""
    try:
        os.dup2(os.open(os.devnull, os.O_WRONLY), sys.stdout.fileno())
    except (OSError, AttributeError, ValueError):
        pass
    return WRITE
