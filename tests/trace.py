#!/usr/bin/env python3
"""Checks documents and sources: links, names, words and lines.

    python3 tests/trace.py

It is `./test documents`, by its old name, and needs nothing but Python.
"""

import subprocess
import sys
from pathlib import Path

ROOT = Path(__file__).resolve().parent.parent

if __name__ == "__main__":
    words = [sys.executable, "tests/run.py", "documents"]
    sys.exit(subprocess.run(words, cwd=ROOT, check=False).returncode)
