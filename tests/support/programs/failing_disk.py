"""Runs a program whose disk takes no more after some calls of `fdatasync`.

    failing_disk.py CALLS PROGRAM WORD..
"""

import os
import runpy
import sys

left, sync = iter(range(int(sys.argv[1]))), os.fdatasync


def failing(descriptor):
    if next(left, None) is None:
        raise OSError(5, "Input/output error")
    sync(descriptor)


os.fdatasync = failing
sys.argv = sys.argv[2:]
sys.path[0] = os.path.dirname(sys.argv[0])
runpy.run_path(sys.argv[0], run_name="__main__")
