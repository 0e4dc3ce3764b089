"""Ends a process when its parent ends for any reason."""

import ctypes
import os
import signal

# PR_SET_PDEATHSIG of prctl(2).
PARENT_DEATH_SIGNAL = 1


def end_with(parent):
    """Lets the kernel kill this process when its parent, the process of this number, has ended."""
    ctypes.CDLL(None).prctl(PARENT_DEATH_SIGNAL, signal.SIGKILL, 0, 0, 0)
    # The parent can have ended before the call.
    if os.getppid() != parent:
        os._exit(128 + signal.SIGKILL)
