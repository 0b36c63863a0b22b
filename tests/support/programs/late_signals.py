"""Runs a program that gets the handlers of its signals a second late, as on a loaded computer.

    late_signals.py PROGRAM WORD..
"""

import os
import runpy
import signal
import sys
import time

installed = signal.signal


def late(*words):
    time.sleep(1)
    return installed(*words)


signal.signal = late
sys.argv = sys.argv[1:]
sys.path[0] = os.path.dirname(sys.argv[0])
runpy.run_path(sys.argv[0], run_name="__main__")
