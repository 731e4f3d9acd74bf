"""What the tools of Vidlakost share: a module for each text, the calls of the program, and what goes with them."""
import errno
import os
import sys


def tell_memory(kind, error, trace):  # type: ignore[no-untyped-def]
    """Says in a line that a tool ran out of memory, even before it begins; any other exception is shown as always."""
    is_none = isinstance(error, MemoryError) or getattr(error, "errno", None) == errno.ENOMEM
    if (
        is_none
        or isinstance(error, ImportError)
        and any(told in str(error) for told in ("allocate memory", "map segment"))
    ):
        os.write(2, b"vidlakost: out of memory\n")
        os._exit(9)
    sys.__excepthook__(kind, error, trace)


sys.excepthook = tell_memory
